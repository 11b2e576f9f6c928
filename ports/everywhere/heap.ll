; What compiled Rattle takes of the heap, by malloc, realloc and free, on machines of 64 bits. This is ports/heap.c, which says more, as
; LLVM code: on Windows a function of C returns two numbers in another way than the kit's code expects.

@nothing = internal global i8 0 ; a byte that nobody uses, since a pointer may not be null

declare ptr @malloc(i64)
declare ptr @realloc(ptr, i64)
declare void @free(ptr)

; Whether there is a block, and where.
define internal { i64, i64 } @tried(ptr %block) nounwind {
  %is_block = icmp ne ptr %block, null
  %ok = zext i1 %is_block to i64
  %place = select i1 %is_block, ptr %block, ptr @nothing
  %address = ptrtoint ptr %place to i64
  %one = insertvalue { i64, i64 } poison, i64 %ok, 0
  %both = insertvalue { i64, i64 } %one, i64 %address, 1
  ret { i64, i64 } %both
}

; A block of no size is one of a unit of its alignment: malloc(0) may return NULL, and realloc(p, 0) may free.
define internal i64 @positive(i64 %size, i64 %alignment) nounwind {
  %is_empty = icmp eq i64 %size, 0
  %positive = select i1 %is_empty, i64 %alignment, i64 %size
  ret i64 %positive
}

define internal { i64, i64 } @rattle_alloc(i64 %size, i64 %alignment) nounwind {
  %positive = call i64 @positive(i64 %size, i64 %alignment)
  %block = call ptr @malloc(i64 %positive)
  %tried = call { i64, i64 } @tried(ptr %block)
  ret { i64, i64 } %tried
}

define internal { i64, i64 } @rattle_realloc(ptr %old, i64 %old_size, i64 %size, i64 %alignment) nounwind {
  %positive = call i64 @positive(i64 %size, i64 %alignment)
  %block = call ptr @realloc(ptr %old, i64 %positive)
  %tried = call { i64, i64 } @tried(ptr %block)
  ret { i64, i64 } %tried
}

define internal void @rattle_dealloc(ptr %block) nounwind {
  call void @free(ptr %block)
  ret void
}
