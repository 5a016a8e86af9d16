; The functions of memory that the library calls, by C's. They are text of LLVM, because two words are returned otherwise by C on some systems.
declare ptr @malloc(i64)
declare ptr @realloc(ptr, i64)
declare void @free(ptr)

@nothing = internal global i8 0

; Whether there is room, and where.
define internal { i64, ptr } @answer(ptr %at) {
  %is_room = icmp ne ptr %at, null
  %done = zext i1 %is_room to i64
  %some = select i1 %is_room, ptr %at, ptr @nothing
  %first = insertvalue { i64, ptr } undef, i64 %done, 0
  %both = insertvalue { i64, ptr } %first, ptr %some, 1
  ret { i64, ptr } %both
}

define { i64, ptr } @rattle_alloc(i64 %size, i64 %align) {
  %is_none = icmp eq i64 %size, 0
  %wanted = select i1 %is_none, i64 %align, i64 %size
  %at = call ptr @malloc(i64 %wanted)
  %found = call { i64, ptr } @answer(ptr %at)
  ret { i64, ptr } %found
}

define { i64, ptr } @rattle_realloc(ptr %old, i64 %old_size, i64 %size, i64 %align) {
  %is_none = icmp eq i64 %size, 0
  %wanted = select i1 %is_none, i64 %align, i64 %size
  %at = call ptr @realloc(ptr %old, i64 %wanted)
  %found = call { i64, ptr } @answer(ptr %at)
  ret { i64, ptr } %found
}

define void @rattle_dealloc(ptr %at) {
  call void @free(ptr %at)
  ret void
}
