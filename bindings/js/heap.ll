; The three calls by which the library takes memory, over heap.c: each gives whether there is memory, and where.
declare ptr @heap_of(i64)
declare ptr @heap_again(ptr, i64)
declare void @heap_give(ptr)

define { i64, i64 } @rattle_alloc(i64 %size, i64 %align) {
  %at = call ptr @heap_of(i64 %size)
  %result = call { i64, i64 } @told(ptr %at)
  ret { i64, i64 } %result
}

define { i64, i64 } @rattle_realloc(ptr %from, i64 %old, i64 %size, i64 %align) {
  %at = call ptr @heap_again(ptr %from, i64 %size)
  %result = call { i64, i64 } @told(ptr %at)
  ret { i64, i64 } %result
}

define void @rattle_dealloc(ptr %at) {
  call void @heap_give(ptr %at)
  ret void
}

; Where there is none the place is 16, which is never read.
define internal { i64, i64 } @told(ptr %at) {
  %place = ptrtoint ptr %at to i64
  %there = icmp ne i64 %place, 0
  %flag = zext i1 %there to i64
  %where = select i1 %there, i64 %place, i64 16
  %one = insertvalue { i64, i64 } undef, i64 %flag, 0
  %both = insertvalue { i64, i64 } %one, i64 %where, 1
  ret { i64, i64 } %both
}
