# Prints a script to time: awk -v kind=KIND -f scripts.awk, where KIND is timers, all, shared, one, four, alone, or quiet1, quiet4
# and so on with a number of workers.
function head(workers, depth, step, rounds) {
    printf "taskscript 1\nworkers %d\ndepth %d\nstart 1\nstep %d\nrounds %d\n", workers, depth, step, rounds
}
BEGIN {
    if (kind == "timers") {
        head(4, 1000, 10, 1000)
        for (i = 0; i < 4096; i++) printf "task t%d home %d nice %d rows 2 init\n", i, i % 4, i % 41 - 20
        for (i = 0; i < 4096; i++) {
            printf "row t%d 0 wake t%d msg after %d next 1\n", i, (i * 13 + 4) % 4096, 50 + i * 7 % 900
            printf "row t%d 1 after %d next 0\n", i, 200 + i * 11 % 700
        }
    } else if (kind == "all") {
        head(16, 1000, 1, 200)
        for (i = 0; i < 4096; i++) printf "task t%d home %d nice 0 rows 1 init\n", i, i % 16
        for (i = 0; i < 4096; i++) printf "row t%d 0 wake t%d io next 0\n", i, i
    } else if (kind == "shared") {
        head(4, 1000, 1, 200)
        for (i = 0; i < 1000; i++) printf "task t%d shared nice %d rows 1 init\n", i, i % 41 - 20
        for (i = 0; i < 1000; i++) printf "row t%d 0 wake t%d io next 0\n", i, i
    } else if (kind == "four" || kind == "alone") {
        # 4,096 tasks that all run in each round, by four workers, or by one in rounds of a quarter of the size.
        workers = kind == "four" ? 4 : 1
        head(workers, 1000, 1, kind == "four" ? 250 : 1000)
        for (i = 0; i < 4096; i++) printf "task t%d home %d nice 0 rows 1 init\n", i, i % workers
        for (i = 0; i < 4096; i++) printf "row t%d 0 wake t%d io next 0\n", i, i
    } else if (substr(kind, 1, 5) == "quiet") {
        # Rounds in which each worker makes one get.
        head(substr(kind, 6), 200, 1, 2000)
        print "task a home 0 nice 0 rows 2 init\nrow a 0 after 1000000000 next 1\nrow a 1 kill a next 1"
    } else {
        head(1, 200, 1, 100000)
        print "task a home 0 nice 0 rows 1 init\nrow a 0 wake a io next 0"
    }
    print "end"
}
