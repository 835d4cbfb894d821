module {
  func.func @prev(%A: memref<100xi32>) {
    %c = arith.constant 1 : i32
    affine.for %i = 1 to 100 {
      %a = affine.load %A[%i - 1] : memref<100xi32>
      %s = arith.addi %a, %c : i32
      affine.store %s, %A[%i] : memref<100xi32>
    }
    return
  }
}
