; The call of PSHUFB in the module's text, through memory.
declare void @shuffle_bytes(ptr, ptr) nounwind

define internal <16 x i8> @shuffled(<16 x i8> %from, <16 x i8> %picks) nounwind {
  %one = alloca <16 x i8>, align 16
  %two = alloca <16 x i8>, align 16
  store <16 x i8> %from, ptr %one, align 16
  store <16 x i8> %picks, ptr %two, align 16
  call void @shuffle_bytes(ptr %one, ptr %two)
  %all = load <16 x i8>, ptr %one, align 16
  ret <16 x i8> %all
}
