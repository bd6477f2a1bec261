(module
  (type (func (param i32) (result i64)))
  (func $loop (export "loop") (type 0) (param i32) (result i64)
    (local i64 i64)
    block 
      block 
        local.get 0
        br_if 0
        i64.const 0
        local.set 1
        br 1
      end
      i64.const 88172645463325252
      local.set 2
      i64.const 0
      local.set 1
      loop 
        local.get 2
        i64.const 13
        i64.shl
        local.get 2
        i64.xor
        local.tee 2
        i64.const 7
        i64.shr_u
        local.get 2
        i64.xor
        local.tee 2
        i64.const 17
        i64.shl
        local.get 2
        i64.xor
        local.tee 2
        i64.const 2685821657736338717
        i64.mul
        local.get 1
        i64.add
        local.set 1
        local.get 0
        i32.const -1
        i32.add
        local.tee 0
        br_if 0
      end
    end
    local.get 1)
  (memory 1))
