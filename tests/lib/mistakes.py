"""Scripts with random mistakes: one of a few good ones, with one to three statements left out, doubled, moved or put in, or words
changed."""
HEAD = """\
ensemble E1C5
period 8 notice 48 budget 20
sub 1 at 0 eep 3-A 128
sub 2 at 200 eep 3-A 64
service C221
audio 63 sub 1 in C221
service C222
audio 63 sub 2 in C222
"""
GOOD = [
    """begin
forever {
  wait contact 3 closed
  rate sub 1 96
  commit in 100
  join
  wait contact 3 open
  rate sub 1 128
  commit in 100
  join
}
""",
    """begin
if contact 3 {
  sub 3 at 300 eep 3-A 32
  service C223
  audio 63 sub 3 in C223
  commit in 60
  join
  drop service C223
  drop sub 3
  commit in 60
  join
} else {
  rate sub 2 32
  commit at 1200
  wait 3
  settle
  rate sub 2 64
  commit in 60
  settle
}
until 06:00:00
move sub 2 at 400
commit in 100
wait 200
end
""",
    """begin
repeat 3 {
  wait 20
  move sub 1 at 500; move sub 2 at 0
  commit in 48; join
  move sub 2 at 200; move sub 1 at 0
  commit in 48; join
}
packet 7 groups type 60 sub 2 address 9
carry 7 in C222
commit in 48
join
""",
    """define swing {
  rate sub 2 48
  commit in 48
  join
  rate sub 2 64
  commit in 48
  join
}
begin
apply swing
if contact 1 {
  wait 5
}
forever {
  wait contact 2 closed
  apply swing
}
""",
    """begin
if time 22:00:00 to 06:00:00 {
  rate sub 2 48
  commit in 48
  join
} else {
  wait until 22:00:00 early 250 or contact 4 closed
  rate sub 2 48
  commit in 48
  wait contact 4 open or 60
  settle
}
forever {
  wait contact 4 open or until 06:00:00 or 5000
  rate sub 2 64
  commit in 48
  join
  wait contact 4 closed or contact 5 closed
  rate sub 2 48
  commit in 48
  join
}
""",
]
STATEMENTS = ["join", "settle", "wait 1", "wait 70", "commit in 50", "commit at 1000", "commit in 20", "commit at 1001", "rate sub 1 96",
              "rate sub 1 100", "rate sub 2 80", "move sub 1 at 800", "move sub 2 at 64", "drop sub 2", "drop service C222",
              "drop component sub 1 in C221", "sub 2 at 300 eep 3-A 8", "sub 4 at 40 eep 2-B 64", "service C222", "service C229",
              "audio 5 sub 1 in C229", "data 5 sub 9 in C221", "packet 7 raw type 5 sub 1 address 1024",
              "packet 8 raw type 5 sub 2 address 9", "end", "repeat 2 { move sub 1 at 600 }", "forever { rate sub 1 96 }",
              "if contact 2 { rate sub 1 96 }", "wait 5 or contact 1 open", "wait until 07:00:00 or until 08:00:00",
              "if time 06:00:00 to 07:00:00 { wait 1 }", "until 05:00:00 early 20", "wait until 05:00:00"]
WORDS = ["1", "2", "0", "07", "96", "100", "3-a", "c221", "0xC221", "6:00", "comit", "joint", "colsed", "or", "early", "time", "sub", "on", "{", "}", "x", "wait", "5"]


def mistaken(chance, lines):
    """The lines with a mistake."""
    at = chance.randrange(1, len(lines))
    kind = chance.randrange(5)
    if kind == 0:
        return lines[:at] + lines[at + 1:]
    if kind == 1:
        return lines[:at] + [lines[at]] + lines[at:]
    if kind == 2:
        to = chance.randrange(1, len(lines))
        rest = lines[:at] + lines[at + 1:]
        return rest[:to] + [lines[at]] + rest[to:]
    if kind == 3:
        return lines[:at] + [chance.choice(STATEMENTS)] + lines[at:]
    words = lines[at].split(" ")
    words[chance.randrange(len(words))] = chance.choice(WORDS)
    return lines[:at] + [" ".join(words)] + lines[at + 1:]


def script(chance):
    """A good script with one to three mistakes."""
    lines = (HEAD + chance.choice(GOOD)).splitlines()
    for _ in range(chance.randrange(1, 4)):
        lines = mistaken(chance, lines)
    return "".join(f"{line}\n" for line in lines)
