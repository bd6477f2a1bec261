(module
  (type (func (param i32) (result i32)))
  (func $loop (export "loop") (type 0) (param i32) (result i32)
    (local i32 i32 i32 i32 i32)
    i32.const 0
    local.set 1
    loop 
      i32.const 8
      local.set 2
      local.get 1
      local.set 3
      loop 
        local.get 3
        i32.const 1
        i32.shr_u
        local.tee 4
        i32.const -306674912
        i32.xor
        local.get 4
        local.get 3
        i32.const 1
        i32.and
        select
        local.set 3
        local.get 2
        i32.const -1
        i32.add
        local.tee 2
        br_if 0
      end
      local.get 1
      i32.const 2
      i32.shl
      i32.const 1024
      i32.add
      local.get 3
      i32.store
      local.get 1
      i32.const 1
      i32.add
      local.tee 1
      i32.const 256
      i32.ne
      br_if 0
    end
    i32.const 0
    local.set 3
    loop 
      local.get 3
      i32.const 2048
      i32.add
      local.get 3
      i32.const 7
      i32.mul
      i32.const 3
      i32.add
      i32.store8
      local.get 3
      i32.const 1
      i32.add
      local.tee 3
      i32.const 1024
      i32.ne
      br_if 0
    end
    block 
      local.get 0
      br_if 0
      i32.const 0
      return
    end
    i32.const -1
    local.set 2
    i32.const 0
    local.set 5
    loop 
      i32.const -1024
      local.set 3
      loop 
        local.get 2
        i32.const 255
        i32.and
        local.get 3
        i32.const 3072
        i32.add
        i32.load8_u
        i32.xor
        i32.const 2
        i32.shl
        i32.const 1024
        i32.add
        i32.load
        local.get 2
        i32.const 8
        i32.shr_u
        i32.xor
        local.set 2
        local.get 3
        i32.const 1
        i32.add
        local.tee 4
        local.get 3
        i32.lt_u
        local.set 1
        local.get 4
        local.set 3
        local.get 1
        i32.eqz
        br_if 0
      end
      local.get 5
      i32.const 1
      i32.add
      local.tee 5
      local.get 0
      i32.ne
      br_if 0
    end
    local.get 2
    i32.const -1
    i32.xor)
  (memory 1))
