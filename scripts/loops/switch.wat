(module
  (type (func (param i32) (result i32)))
  (func $loop (export "loop") (type 0) (param i32) (result i32)
    (local i32 i32 i32 i32)
    block 
      block 
        local.get 0
        br_if 0
        i32.const 0
        local.set 1
        br 1
      end
      i32.const 0
      local.set 2
      i32.const 0
      local.set 3
      i32.const 0
      local.set 1
      i32.const 1
      local.set 4
      loop 
        block 
          block 
            block 
              block 
                block 
                  block 
                    block 
                      block 
                        block 
                          local.get 3
                          local.get 4
                          i32.xor
                          i32.const 7
                          i32.and
                          br_table 0 1 2 3 4 5 6 7
                        end
                        local.get 1
                        local.get 4
                        i32.add
                        local.set 1
                        br 7
                      end
                      local.get 3
                      local.get 1
                      i32.xor
                      local.set 1
                      br 6
                    end
                    local.get 1
                    i32.const 5
                    i32.mul
                    i32.const 1
                    i32.add
                    local.set 1
                    br 5
                  end
                  local.get 1
                  local.get 4
                  i32.sub
                  local.set 1
                  br 4
                end
                local.get 1
                i32.const 3
                i32.rotl
                local.set 1
                br 3
              end
              local.get 1
              local.get 2
              i32.add
              local.set 1
              br 2
            end
            local.get 1
            local.get 4
            i32.const 5
            i32.shl
            i32.xor
            local.set 1
            br 1
          end
          local.get 1
          i32.const -1
          i32.xor
          local.set 1
        end
        local.get 4
        i32.const 1664525
        i32.mul
        i32.const 1013904223
        i32.add
        local.tee 4
        i32.const 15
        i32.shr_u
        local.get 4
        i32.xor
        local.set 4
        local.get 2
        i32.const 7
        i32.add
        local.set 2
        local.get 0
        local.get 3
        i32.const 1
        i32.add
        local.tee 3
        i32.ne
        br_if 0
      end
    end
    local.get 1)
  (memory 1))
