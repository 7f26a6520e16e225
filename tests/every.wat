;; A module with a section of every kind that wat2wasm (wabt 1.0.32) writes: the stored run of crates/wasm_copy. wat2wasm spells
;; numbers shortest and keeps the standard's order of sections, so the copy has the same bytes.
;;
;;     wat2wasm --debug-names --enable-exceptions tests/every.wat -o crates/wasm_copy/stdin
;;     cp crates/wasm_copy/stdin crates/wasm_copy/stdout
(module $every
  (type $binary (func (param i32 i32) (result i32)))
  (type $nothing (func))
  (type $pair (func (param i64 f64) (result f32 externref)))
  (type $report (func (param i32)))

  (import "host" "log" (func $log (type $report)))
  (import "host" "base" (global $base i32))
  (import "host" "failed" (tag $failed (type $report)))

  (table $steps 4 8 funcref)
  (table $guests 2 externref)
  (memory $pages 1 2)

  (tag $stopped (param i32))

  (global $count (mut i32) (i32.const -129))
  (global $large i64 (i64.const 0x7fff_ffff_ffff))
  (global $ratio f64 (f64.const 0x1.8p+1))
  (global $half f32 (f32.const 0.5))
  (global $lanes v128 (v128.const i32x4 1 2 3 0xffffffff))
  (global $first funcref (ref.func $add))
  (global $guest externref (ref.null extern))
  (global $from_host i32 (global.get $base))

  (export "add" (func $add))
  (export "steps" (table $steps))
  (export "memory" (memory $pages))
  (export "count" (global $count))
  (export "stopped" (tag $stopped))
  (export "gr\c3\bc\c3\9fe" (func $fact))

  (start $begin)

  (elem $listed (table $steps) (i32.const 0) func $add $fact)
  (elem $passive func $fact $begin)
  (elem $maybe funcref (ref.func $add) (ref.null func))
  (elem declare func $copy)

  (func $add (type $binary) (param $a i32) (param $b i32) (result i32)
    local.get $a
    local.get $b
    i32.add)

  (func $fact (param $n i64) (result i64)
    (local $product i64) (local $turns i32) (local $more i32)
    i64.const 1
    local.set $product
    (block $done
      (loop $turn
        (br_if $done (i64.eqz (local.get $n)))
        (local.set $product (i64.mul (local.get $product) (local.get $n)))
        (local.set $n (i64.sub (local.get $n) (i64.const 1)))
        (br $turn)))
    local.get $product)

  (func $copy (param $to i32)
    (memory.init $text (local.get $to) (i32.const 0) (i32.const 5))
    (data.drop $text)
    (table.init $steps $passive (i32.const 2) (i32.const 0) (i32.const 2))
    (elem.drop $passive))

  (func $begin (type $nothing)
    (try (do (call $copy (i32.const 256)))
      (catch $failed (call $log)))
    (global.set $count (call_indirect $steps (type $binary) (i32.const 3) (i32.const 4) (i32.const 0))))

  (data $text "hello")
  (data (i32.const 16) "\00\01\02 and some more text")
  (data (memory $pages) (global.get $base) "placed by the host"))
