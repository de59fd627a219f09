;; Constructs of all sorts. Made by: wat2wasm --enable-all control.wat
(module
  (type (func (result i32)))
  (tag $t (param i32))
  (func (result i32) (local i32 i64 i64 funcref)
    block (result i32)
      loop
        local.get 0
        br_if 0
        local.get 0
        br_table 0 0 0
      end
      i32.const 1
      br 0
    end
    if (result i32)
      i32.const 2
    else
      i32.const 3
    end
    return)
  (func
    try
      i32.const 7
      throw $t
    catch $t
      drop
    catch_all
      rethrow 0
    end
    try
      try
        call 0
        drop
      delegate 0
    end
    unreachable)
  (func
    nop))
