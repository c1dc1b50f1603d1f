jetlab 1
system frames 64 target 16 inactive 16 store 64 critical 1 delay 4
task 0 band 0 active 24 soft inactive 12 soft
task 1 band 5 active 24 soft inactive 12 soft
task 2 band 10 active 65536 soft inactive 65536 soft internal
object 0 task 0 pages 1
object 1 task 1 pages 2
object 2 task 2 pages 3
object 3 task 0 pages 4
object 4 task 1 pages 1
object 5 task 2 pages 2
object 6 task 0 pages 3
object 7 task 1 pages 4
object 8 task 2 pages 1
object 9 task 0 pages 2
object 10 task 1 pages 3
object 11 task 2 pages 4
object 12 task 0 pages 1
object 13 task 1 pages 2
object 14 task 2 pages 3
object 15 task 0 pages 4
object 16 task 1 pages 1
object 17 task 2 pages 2
object 18 task 0 pages 3
object 19 task 1 pages 4
object 20 task 2 pages 1
object 21 task 0 pages 2
object 22 task 1 pages 3
object 23 task 2 pages 4
object 24 task 0 pages 1
object 25 task 1 pages 2
object 26 task 2 pages 3
object 27 task 0 pages 4
object 28 task 1 pages 1
object 29 task 2 pages 2
object 30 task 0 pages 3
object 31 task 1 pages 4
object 32 task 2 pages 1
object 33 task 0 pages 2
object 34 task 1 pages 3
object 35 task 2 pages 4
object 36 task 0 pages 1
object 37 task 1 pages 2
object 38 task 2 pages 3
object 39 task 0 pages 4
thread 0 task 0
thread 1 task 1
thread 2 task 2
thread 3 task 2
thread 4 kernel
thread 5 kernel
order
end
