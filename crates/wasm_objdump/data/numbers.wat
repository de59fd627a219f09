;; Constants, memory arguments and vectors. Made by: wat2wasm --enable-all numbers.wat
(module
  (memory 1)
  (data "abc")
  (func
    f64.const 0.1
    f64.neg
    drop
    f32.const -nan:0x200000
    drop
    i64.const 9223372036854775807
    drop
    i32.const 8
    i32.const 0
    i64.load offset=4096 align=4
    i64.store
    v128.const i32x4 1 2 3 0xffffffff
    v128.const i32x4 0 0 0 0
    i8x16.shuffle 0 1 2 3 4 5 6 7 8 9 10 11 12 13 14 31
    i16x8.extract_lane_s 7
    drop)
  (func
    i32.const 0
    i32.const 1
    i32.const 2
    memory.init 0
    data.drop 0
    i32.const 0
    i32.const 1
    i32.atomic.rmw.add offset=8
    drop))
