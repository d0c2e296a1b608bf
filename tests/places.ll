; A module whose words are all at multiples of 8, which tests/places.awk must follow: an inner
; function gets the outcome, and the hart in memory. Half a word is one of the totals. A word of a
; table is counted in words, and a quarter of one in quarters. One of two images is chosen, with the
; number of its word in a byte, and of one counted behind x31. An image at null is moved, as the
; generator does. The rows of a table are gone through.
@table = private unnamed_addr constant [2 x i64] [i64 18, i64 23], align 8
@rows = private unnamed_addr constant [48 x i8] zeroinitializer, align 8
@quarters = private unnamed_addr constant [2 x i16] [i16 768, i16 769], align 2

define internal fastcc void @"inner::put"(ptr noundef captures(none) %a0, ptr noundef %a1) {
  %hart = load ptr, ptr %a1, align 8
  %word = getelementptr i8, ptr %hart, i64 16
  %value = load i64, ptr %word, align 1
  %answer = getelementptr i8, ptr %a0, i64 8
  store i64 %value, ptr %answer, align 1
  ret void
}

define ptr @vhart_entry(ptr returned captures(ret: address, provenance) initializes((0, 24)) %a0, ptr %a1, i64 %a2, ptr %a3, i64 %a4, i64 %a5, i64 %a6, i64 %a7, i64 %a8, ptr %a9) {
  %slice = alloca [16 x i8], align 8
  store ptr %a3, ptr %slice, align 8
  %total = getelementptr i8, ptr %a9, i64 28
  store i32 1, ptr %total, align 1
  %entry = getelementptr inbounds nuw i64, ptr @table, i64 %a5
  %refusal = load i64, ptr %entry, align 8
  %quarter = getelementptr inbounds nuw i16, ptr @quarters, i64 %a5
  %own = load i16, ptr %quarter, align 2
  %number = trunc i64 %a6 to i8
  %eightfold = shl nuw i8 %number, 3
  %distance = zext i8 %eightfold to i64
  %is_null = icmp eq ptr %a1, null
  %moved = select i1 %is_null, i64 4096, i64 0
  %caps = getelementptr i8, ptr %a1, i64 %moved
  %of_caps = getelementptr i8, ptr %caps, i64 %distance
  %is_of_caps = icmp ult i8 %number, 9
  %behind = add nuw nsw i64 %distance, 256
  %of_hart = getelementptr i8, ptr %a3, i64 %behind
  %chosen = select i1 %is_of_caps, ptr %of_caps, ptr %of_hart
  %shown = load i64, ptr %chosen, align 1
  %row = phi ptr [ @rows, %start ], [ %next, %again ]
  %first = load i64, ptr %row, align 8
  %next = getelementptr i8, ptr %row, i64 24
  call fastcc void @"inner::put"(ptr noundef %a0, ptr %slice)
  ret ptr %a0
}
