jetlab 1
system frames 64 target 16 inactive 16 store 64 critical 1 delay 4
task 0 band 0 active 24 soft inactive 12 soft
task 1 band 5 active 24 soft inactive 12 soft
task 2 band 10 active 65536 soft inactive 65536 soft internal
object 0 task 0 pages 1
object 1 task 1 pages 2
object 2 task 2 pages 3
object 3 task 0 pages 4
object 4 task 1 pages 1
object 5 task 2 pages 2
object 6 task 0 pages 3
object 7 task 1 pages 4
object 8 task 2 pages 1
object 9 task 0 pages 2
object 10 task 1 pages 3
object 11 task 2 pages 4
object 12 task 0 pages 1
object 13 task 1 pages 2
object 14 task 2 pages 3
object 15 task 0 pages 4
object 16 task 1 pages 1
object 17 task 2 pages 2
object 18 task 0 pages 3
object 19 task 1 pages 4
object 20 task 2 pages 1
object 21 task 0 pages 2
object 22 task 1 pages 3
object 23 task 2 pages 4
object 24 task 0 pages 1
object 25 task 1 pages 2
object 26 task 2 pages 3
object 27 task 0 pages 4
object 28 task 1 pages 1
object 29 task 2 pages 2
object 30 task 0 pages 3
object 31 task 1 pages 4
object 32 task 2 pages 1
object 33 task 0 pages 2
object 34 task 1 pages 3
object 35 task 2 pages 4
object 36 task 0 pages 1
object 37 task 1 pages 2
object 38 task 2 pages 3
object 39 task 0 pages 4
thread 0 task 0
set 9 0
write 21 8192 0000000c
write 18 4096 00000013
set 30 1089
get 9
set 9 577
set 6 1
thread 1 task 1
set 13 0
set 4 0
read 19 6144 16
set 28 0
set 19 321
set 22 1
read 1 11264 16
set 22 1601
set 16 1
write 34 10240 0000002f
thread 2 task 2
write 17 5120 00000001
set 23 1
map 11
set 2 1
set 11 1
map 14
set 35 1
map 20
read 20 15360 16
write 11 12288 00000025
write 14 8192 0000002b
thread 3 task 2
write 14 0 00000008
set 29 0
read 29 14336 16
set 11 1857
set 2 1
thread 4 kernel
tick
scan
purge
force
scan
jetsam
thread 5 kernel
force
scan
tick
scan
scan
scan
force
jetsam
scan
tick
jetsam
order 4 2 0 5 1 5 1 2 3 1 5 4 0 4 3 1 2 5 1 0 4 0 5 4 1 2 5 2 1 2 2 0 5 3 2 4 2 2 5 0 5 0 1 2 1 3 5 1 3 5
end
