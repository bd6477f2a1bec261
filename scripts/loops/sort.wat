(module
  (type (func (param i32) (result i32)))
  (func $loop (export "loop") (type 0) (param i32) (result i32)
    (local i32 i32 i32 i32 i32 i32 i32 i32 i32 i32 i32 i32)
    block 
      local.get 0
      br_if 0
      i32.const 0
      return
    end
    i32.const 1
    local.set 1
    i32.const 0
    local.set 2
    i32.const 0
    local.set 3
    loop 
      i32.const -1024
      local.set 4
      loop 
        local.get 4
        i32.const 2048
        i32.add
        local.get 1
        i32.const 1664525
        i32.mul
        i32.const 1013904223
        i32.add
        local.tee 1
        i32.const 8
        i32.shr_u
        i32.store
        local.get 4
        i32.const 4
        i32.add
        local.tee 4
        br_if 0
      end
      i32.const 128
      local.set 5
      loop 
        i32.const 0
        local.get 5
        i32.const 2
        i32.shl
        local.tee 6
        i32.sub
        local.set 7
        i32.const 1024
        local.set 8
        local.get 5
        local.set 9
        loop 
          local.get 9
          i32.const 2
          i32.shl
          i32.const 1024
          i32.add
          i32.load
          local.set 10
          local.get 9
          local.set 11
          block 
            local.get 9
            local.get 5
            i32.lt_u
            br_if 0
            local.get 8
            local.set 4
            local.get 9
            local.set 11
            loop 
              local.get 4
              i32.load
              local.tee 12
              local.get 10
              i32.le_u
              br_if 1
              local.get 4
              local.get 6
              i32.add
              local.get 12
              i32.store
              local.get 4
              local.get 7
              i32.add
              local.set 4
              local.get 11
              local.get 5
              i32.sub
              local.tee 11
              local.get 5
              i32.ge_u
              br_if 0
            end
          end
          local.get 11
          i32.const 2
          i32.shl
          i32.const 1024
          i32.add
          local.get 10
          i32.store
          local.get 8
          i32.const 4
          i32.add
          local.set 8
          local.get 9
          i32.const 1
          i32.add
          local.tee 9
          i32.const 256
          i32.ne
          br_if 0
        end
        local.get 5
        i32.const 2
        i32.lt_u
        local.set 4
        local.get 5
        i32.const 1
        i32.shr_u
        local.set 5
        local.get 4
        i32.eqz
        br_if 0
      end
      local.get 2
      i32.const 255
      i32.and
      i32.const 2
      i32.shl
      i32.const 1024
      i32.add
      i32.load
      local.get 3
      i32.xor
      local.set 3
      local.get 2
      i32.const 1
      i32.add
      local.tee 2
      local.get 0
      i32.ne
      br_if 0
    end
    local.get 3)
  (memory 1))
