# Writes a valid text of exactly so many bytes: awk -f texts.awk -v kind=KIND -v size=BYTES
# KIND is `regular` or `random`, for a transcript, or `script`.

# A number below n, by a generator that needs no more than 53 bits.
function draw(n) {
    state = state * 16807 % 2147483647
    return int(state / 16) % n
}

function put(line) {
    left -= length(line) + 1
    print line
}

# The reasons of these bits, at least one, in their order.
function listed(bits,   bit, word) {
    for (bit = 0; bit < 7; bit++)
        if (int(bits / 2 ^ bit) % 2) word = word (word == "" ? "" : ",") reason[bit]
    return word
}

function reasons() {
    return listed(1 + draw(127))
}

function seen(   place) {
    if (draw(8) == 0) return "gone"
    place = stand[draw(3)]
    return place " " (draw(2) ? "-" : reasons()) " " (draw(4) ? "live" : "killed") " " draw(32768) * draw(32768)
}

function mask(   word, digit) {
    for (digit = 0; digit < 16; digit++) word = word substr("0123456789abcdef", 1 + draw(16), 1)
    return word
}

# Any entry.
function entry(   caller, task) {
    caller = "c" draw(16)
    task = draw(4096)
    call = draw(8)
    if (call == 0) return caller " post " task " " draw(64)
    if (call == 1) return caller " get " draw(64) " " mask()
    if (call == 2) return caller " draw " task
    if (call == 3) return caller " wake " task " " reasons() " " seen()
    if (call == 4) return caller " kill " task " " seen()
    if (call == 5) return caller " take " task " " seen()
    if (call == 6) return caller " drop " task " " seen()
    return caller " retire " task " " seen()
}

# The entries of a task that runs and wakes its neighbour, in turn.
function turn(n,   task) {
    task = n % 64
    if (n % 4 == 0) return "c1 take " task " queued timer live " int(n / 4)
    if (n % 4 == 1) return "c1 wake " task + 1 " msg rest - live " int(n / 4)
    if (n % 4 == 2) return "c1 wake " task + 1 " io queued msg live " int(n / 4)
    return "c1 drop " task " runs - live " int(n / 4)
}

function transcript(   round, n, spare) {
    put("taskrun 1")
    for (round = 0; left > 12000; round++) {
        put("round " round " tick " round * 10)
        for (n = 0; n < 100; n++) put(kind == "random" ? entry() : turn(round * 100 + n))
    }
    left -= length("end rest " (round - 1)) + 1
    while (left > 24) put("c0 post 1 1")
    # 12 to 24 bytes are left: one more line of that length
    spare = left - 12
    put("c0 post " substr("111111111", 1, 1 + (spare < 8 ? spare : 8)) " " substr("111111111", 1, 1 + (spare < 8 ? 0 : spare - 8)))
    print "end rest " round - 1
}

# A name of one to three letters for each task.
function name(task) {
    return substr(letters, 1 + task % 16, 1) substr(letters, 1 + int(task / 16) % 16, 1) substr(letters, 1 + int(task / 256), 1)
}

function action(   task) {
    task = name(draw(4096))
    return draw(4) ? "wake " task " " reasons() : "kill " task
}

function row(task, number, rows,   words, n) {
    words = "row " name(task) " " number
    for (n = draw(4); n > 0; n--) words = words " " action()
    n = draw(3)
    if (n == 1) words = words " after " 1 + draw(32768)
    if (n == 2) words = words " never"
    return words " next " draw(rows)
}

function script(   task, number, rows, bits) {
    rows = 16
    put("taskscript 1\nworkers 4\ndepth 200\nstart 4294967290\nstep 10\nrounds 100000")
    for (task = 0; task < 4096; task++) put("task " name(task) " home " draw(4) " nice " draw(2048) - 1024 " rows " rows (draw(2) ? " init" : ""))
    for (task = 0; task < 4096; task++) for (number = 0; number < rows; number++) put(row(task, number, rows))
    left -= 4
    while (left > 43) put("event 0 kill aaa")
    # 27 to 43 bytes are left: one wake with as long a list
    for (bits = 1; length(listed(bits)) != left - 18; bits++);
    put("event 0 wake aaa " listed(bits))
    print "end"
}

BEGIN {
    split("init timer io signal msg res other", list, " ")
    for (n = 1; n <= 7; n++) reason[n - 1] = list[n]
    stand[0] = "rest"; stand[1] = "queued"; stand[2] = "runs"
    letters = "abcdefghijklmnop"
    state = 42
    left = size
    if (kind == "script") script(); else transcript()
    if (left != 0) { print "texts: a text of " kind " of " size " bytes has " left " bytes left" > "/dev/stderr"; exit 1 }
}
