(module
  (type (func (param i32) (result i32)))
  (func $loop (export "loop") (type 0) (param i32) (result i32)
    (local i32 i32 i32 i32 i32 i32 i32 i32 i32)
    i32.const 0
    local.set 1
    i32.const 0
    local.set 2
    i32.const 0
    local.set 3
    loop 
      local.get 1
      local.set 4
      local.get 2
      local.set 5
      i32.const 0
      local.set 6
      loop 
        local.get 4
        i32.const 2048
        i32.add
        local.get 3
        local.get 6
        i32.add
        i32.store
        local.get 4
        i32.const 1024
        i32.add
        local.get 5
        i32.store
        local.get 4
        i32.const 4
        i32.add
        local.set 4
        local.get 5
        i32.const 1
        i32.add
        local.set 5
        local.get 6
        i32.const 31
        i32.add
        local.tee 6
        i32.const 496
        i32.ne
        br_if 0
      end
      local.get 1
      i32.const 64
      i32.add
      local.set 1
      local.get 2
      i32.const 17
      i32.add
      local.set 2
      local.get 3
      i32.const 1
      i32.add
      local.tee 3
      i32.const 16
      i32.ne
      br_if 0
    end
    block 
      local.get 0
      br_if 0
      i32.const 0
      return
    end
    i32.const 0
    local.set 7
    i32.const 0
    local.set 8
    loop 
      i32.const 1024
      local.set 3
      i32.const 0
      local.set 9
      loop 
        i32.const 0
        local.set 1
        i32.const 2048
        local.set 2
        loop 
          local.get 2
          local.set 4
          i32.const 0
          local.set 5
          i32.const 0
          local.set 6
          loop 
            local.get 4
            i32.load
            local.get 3
            local.get 5
            i32.add
            i32.load
            i32.mul
            local.get 6
            i32.add
            local.set 6
            local.get 4
            i32.const 64
            i32.add
            local.set 4
            local.get 5
            i32.const 4
            i32.add
            local.tee 5
            i32.const 64
            i32.ne
            br_if 0
          end
          local.get 9
          i32.const 6
          i32.shl
          local.get 1
          i32.const 2
          i32.shl
          i32.add
          i32.const 3072
          i32.add
          local.get 6
          i32.store
          local.get 2
          i32.const 4
          i32.add
          local.set 2
          local.get 1
          i32.const 1
          i32.add
          local.tee 1
          i32.const 16
          i32.ne
          br_if 0
        end
        local.get 3
        i32.const 64
        i32.add
        local.set 3
        local.get 9
        i32.const 1
        i32.add
        local.tee 9
        i32.const 16
        i32.ne
        br_if 0
      end
      local.get 7
      i32.const 15
      i32.and
      local.tee 4
      i32.const 6
      i32.shl
      local.tee 5
      local.get 7
      i32.const 2
      i32.shr_u
      i32.const 60
      i32.and
      i32.or
      i32.const 1024
      i32.add
      local.tee 6
      local.get 6
      i32.load
      local.get 7
      i32.const 4
      i32.shl
      i32.const 960
      i32.and
      local.get 4
      i32.const 2
      i32.shl
      i32.or
      i32.const 3072
      i32.add
      i32.load
      i32.xor
      i32.store
      local.get 5
      i32.const 3084
      i32.add
      i32.load
      local.get 8
      i32.add
      local.set 8
      local.get 7
      i32.const 1
      i32.add
      local.tee 7
      local.get 0
      i32.ne
      br_if 0
    end
    local.get 8)
  (memory 1))
