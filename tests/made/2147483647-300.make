jetlab 1
system frames 64 target 16 inactive 16 store 64 critical 1 delay 4
task 0 band 0 active 24 soft inactive 12 soft
task 1 band 5 active 24 soft inactive 12 soft
task 2 band 10 active 65536 soft inactive 65536 soft internal
object 0 task 0 pages 1
object 1 task 1 pages 2
object 2 task 2 pages 3
object 3 task 0 pages 4
object 4 task 1 pages 1
object 5 task 2 pages 2
object 6 task 0 pages 3
object 7 task 1 pages 4
object 8 task 2 pages 1
object 9 task 0 pages 2
object 10 task 1 pages 3
object 11 task 2 pages 4
object 12 task 0 pages 1
object 13 task 1 pages 2
object 14 task 2 pages 3
object 15 task 0 pages 4
object 16 task 1 pages 1
object 17 task 2 pages 2
object 18 task 0 pages 3
object 19 task 1 pages 4
object 20 task 2 pages 1
object 21 task 0 pages 2
object 22 task 1 pages 3
object 23 task 2 pages 4
object 24 task 0 pages 1
object 25 task 1 pages 2
object 26 task 2 pages 3
object 27 task 0 pages 4
object 28 task 1 pages 1
object 29 task 2 pages 2
object 30 task 0 pages 3
object 31 task 1 pages 4
object 32 task 2 pages 1
object 33 task 0 pages 2
object 34 task 1 pages 3
object 35 task 2 pages 4
object 36 task 0 pages 1
object 37 task 1 pages 2
object 38 task 2 pages 3
object 39 task 0 pages 4
thread 0 task 0
map 6
set 6 1
get 24
set 36 65
map 12
get 30
write 21 7168 00000039
read 30 8192 16
read 9 9216 16
set 30 0
set 6 0
get 9
set 27 1
set 9 1
write 0 12288 00000084
write 36 10240 0000008a
set 24 1
set 18 65
read 15 11264 16
set 21 1
set 21 0
read 0 4096 16
set 36 1345
set 27 1601
map 27
set 36 1
set 36 577
set 12 321
set 12 1
read 24 12288 16
write 15 2048 000000d7
set 36 1
write 3 4096 00000101
map 6
read 9 6144 16
set 30 0
get 15
set 21 1857
set 15 1
get 15
write 12 0 0000011d
set 15 0
thread 1 task 1
write 19 15360 00000002
read 10 2048 16
set 16 1
get 19
set 22 0
set 4 1
get 16
map 13
set 19 1
read 31 7168 16
set 19 1089
read 22 7168 16
set 34 1
set 4 65
read 31 13312 16
get 19
write 28 14336 0000008e
get 7
get 28
set 25 833
get 19
set 37 1345
get 31
write 13 0 000000bb
set 4 0
set 28 1
set 16 1
set 22 0
map 25
write 25 9216 000000d2
write 13 9216 000000e0
read 22 13312 16
write 16 4096 000000e7
write 34 10240 000000e9
set 4 1089
set 37 1
set 7 1
write 16 10240 00000100
set 4 1
write 34 15360 00000110
write 16 0 00000115
set 10 0
thread 2 task 2
get 38
write 38 13312 0000000f
set 23 1089
set 35 321
set 35 0
set 2 833
set 32 0
map 20
set 17 1
write 35 14336 00000031
map 26
get 23
write 23 4096 00000044
map 32
map 23
get 20
set 5 1
get 29
write 8 6144 00000067
set 26 1
get 38
write 32 5120 00000071
write 14 13312 00000074
write 38 5120 00000077
write 32 9216 0000007f
write 11 0 00000090
read 32 12288 16
get 8
set 11 1
set 29 1345
write 2 8192 000000c1
map 5
set 23 0
read 35 11264 16
set 11 0
get 38
map 29
write 38 3072 000000de
read 5 5120 16
write 32 3072 000000ea
get 14
set 23 0
write 5 1024 000000ef
set 35 0
set 14 1857
map 38
set 2 1
get 17
set 38 65
read 17 7168 16
write 38 9216 0000011c
set 2 1
get 20
read 14 14336 16
map 38
thread 3 task 2
map 14
set 8 577
set 32 1089
read 29 13312 16
set 23 577
write 26 2048 0000001b
get 23
read 29 1024 16
map 23
map 20
set 20 1857
map 8
set 17 1
map 38
read 20 4096 16
set 35 1
map 38
set 17 577
get 5
get 11
set 23 1089
set 35 1
set 11 1
set 11 1
read 11 10240 16
write 8 6144 00000058
write 35 11264 00000059
write 2 14336 0000005f
write 11 1024 00000060
set 23 833
write 20 7168 00000064
write 38 3072 00000075
set 32 1
write 11 12288 00000093
set 32 0
set 17 0
set 14 0
get 35
read 20 10240 16
set 14 577
write 17 0 000000b6
map 26
write 35 11264 000000cc
set 8 577
map 11
map 29
write 11 7168 000000f1
write 20 0 000000f2
read 5 5120 16
write 23 9216 000000f8
set 32 0
get 35
write 2 12288 00000112
read 2 4096 16
write 26 1024 00000121
write 29 1024 00000122
set 29 577
thread 4 kernel
tick
tick
jetsam
jetsam
scan
scan
jetsam
scan
jetsam
scan
scan
scan
tick
scan
scan
scan
scan
scan
scan
scan
scan
force
force
purge
scan
force
scan
force
scan
force
force
scan
scan
jetsam
force
force
scan
scan
force
tick
tick
jetsam
purge
purge
force
purge
jetsam
scan
purge
scan
scan
thread 5 kernel
scan
scan
scan
tick
scan
purge
scan
scan
scan
force
scan
scan
tick
tick
scan
jetsam
scan
tick
scan
jetsam
scan
scan
scan
purge
scan
force
purge
tick
scan
force
scan
scan
purge
scan
scan
scan
force
scan
scan
scan
tick
jetsam
scan
scan
scan
tick
purge
purge
scan
force
scan
scan
scan
order 5 4 1 4 5 3 4 4 1 4 5 2 3 0 5 2 2 2 2 4 3 5 2 0 3 3 2 3 3 1 5 5 0 4 5 2 3 5 0 3 2 1 5 3 3 0 3 5 3 2 3 4 1 3 1 0 5 0 2 0 5 3 3 4 2 3 5 3 2 2 5 4 3 3 3 1 1 3 4 3 4 5 3 2 0 1 4 5 3 3 1 5 2 2 1 3 3 5 3 4 3 2 5 2 5 5 5 2 1 4 2 1 4 2 5 0 2 3 5 2 0 4 3 0 0 4 1 2 0 5 1 5 0 5 1 4 5 4 0 4 4 0 1 0 2 0 5 3 4 1 5 2 1 5 2 4 5 5 3 4 0 0 3 0 0 4 3 1 5 0 2 5 5 3 3 1 5 3 4 1 1 4 3 5 0 0 4 1 2 4 0 4 1 2 5 5 0 4 3 2 1 1 4 1 3 4 1 4 4 0 1 5 4 0 2 0 4 2 3 2 2 2 2 3 1 1 5 2 5 5 3 1 4 1 2 2 4 0 2 2 2 3 3 3 2 2 5 1 3 5 1 2 2 2 4 1 1 0 4 0 3 4 0 5 0 5 1 5 3 4 0 4 1 5 3 5 0 1 5 4 0 3 0 2 2 0 2 4 2 3 3 3 4 4 0 4 2 2 1 4
end
