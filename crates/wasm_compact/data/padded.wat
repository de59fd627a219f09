;; Made by: wat2wasm --enable-all padded.wat
(module
  (memory 1)
  (func (param i32) (result i32) (local i64)
    block
      block
        local.get 0
        br_table 0 1 1
      end
      i32.const -3
      call 0
      drop
    end
    local.get 0
    i32.load offset=8
    f32.reinterpret_i32
    i32.trunc_sat_f32_s
    )
  (func
    i32.const 1
    i32.const 2
    i32.const 3
    memory.fill))
