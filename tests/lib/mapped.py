"""Plans whose maps the tests of `map` look at."""

# Two sub-channels in one cell, a block that is applied twice, and paths that merge.
WAYS = """\
ensemble E1C5
period 4 notice 24 budget 20
sub 1 at 0 eep 4-A 8
sub 2 at 4 eep 4-A 16
sub 63 at 860 eep 4-A 8
service C221
audio 63 sub 1 in C221
data 5 sub 2 in C221
audio 63 sub 63 in C221
define lower { rate sub 2 8; commit in 24; join; rate sub 2 16; commit at 1000; join }
begin
apply lower
if contact 3 { move sub 63 at 24; commit in 24; join; move sub 63 at 860; commit in 24; join }
apply lower
"""

# Services that move, are added, dropped and changed; packet components; each kind of what leads to a commit.
PARTS = """\
ensemble E1C5
period 4 notice 24 budget 20
sub 1 at 0 eep 3-A 128
sub 2 at 96 eep 3-B 64
packet 7 raw type 60 sub 2 address 9
service C221
audio 63 sub 1 in C221
service E1C20001
carry 7 in E1C20001
begin
drop component sub 1 in C221
data 5 sub 2 in C221
commit in 24
settle
drop packet 7
packet 7 groups type 59 sub 2 address 9
commit at 1000
join
wait 65535
service C222
audio 0 sub 1 in C222
commit in 24
join
until 23:59:59
drop service C222
commit in 24
join
if contact 15 { drop service C221 commit in 24 join service C221 data 5 sub 2 in C221 commit in 24 join }
else { service C222 audio 0 sub 1 in C222 commit in 24 join drop service C222 commit in 24 join }
wait contact 0 open
drop sub 1
commit in 24
join
if contact 1 { wait 1 }
sub 1 at 0 eep 1-A 8
commit in 24
"""
