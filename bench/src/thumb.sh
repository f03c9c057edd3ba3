# ARMv6-M: the library's module for another target, linked into the unit's memory, on the emulator. For bench/run and bench/search.
kit=${RATTLE_HOME:-$(dirname "$(rt doc)")}
clang=$kit/toolchain/bin/clang
emulator="timeout 300 qemu-system-arm -M mps2-an385 -display none -serial none -monitor none -semihosting-config enable=on,target=native"
ulimit -c 0 # the emulator aborts where the unit would fault

# LEVEL MODULE TO: TO.ll, TO.o and its frames, TO.su. The module is made for addresses of 64 bits, in places of 8 bytes: ptrtoaddr would have to widen
# one of 32, and the address of a flag and an address loaded as one would be looked for at byte 4.
thumb() {
  local size=
  if [ "$1" = Os ]; then size="optsize "; fi
  sed -e 's/^target datalayout.*/target datalayout = "e-m:e-p:32:32-Fi8-i64:64-v128:64:128-a:0:32-n32-S64"/' \
    -e 's/^target triple.*/target triple = "thumbv6m-unknown-none-eabi"/' \
    -e 's/"target-cpu"="[^"]*"//' -e 's/ = ptrtoaddr / = ptrtoint /' \
    -e 's/^  \(%r[0-9]*\) = load { i8, ptr }, ptr \(%r[0-9]*\), align 8$/  \1.f = load i8, ptr \2, align 8\n  \1.at = getelementptr i8, ptr \2, i64 8\n  \1.p = load ptr, ptr \1.at, align 8\n  \1.h = insertvalue { i8, ptr } poison, i8 \1.f, 0\n  \1 = insertvalue { i8, ptr } \1.h, ptr \1.p, 1/' \
    -e "s/^attributes #0 = { \(noinline \)\?.*/attributes #0 = { \1${size}nounwind }/" "$2" >"$3.ll"
  "$clang" --target=thumbv6m-none-eabi -mcpu=cortex-m0plus -ffunction-sections -fdata-sections --no-default-config \
    "-$1" -fstack-usage -Wno-override-module -c -x ir "$3.ll" -o "$3.o"
}
link() { # PROGRAM OBJECT TO WORDS..: TO and its disassembly, TO.dis
  local arm="arm-none-eabi-gcc -mcpu=cortex-m0plus -mthumb -O2 -ffreestanding -fno-builtin -fno-tree-loop-distribute-patterns -ffunction-sections -fdata-sections -I$root/include"
  $arm -c "$1" -o "$out/program.o"
  $arm -nostdlib -T "$src/unit.ld" "$out/program.o" "$src/mem.c" "$2" -lgcc -Wl,--gc-sections -Wl,--no-warn-rwx-segments -Wl,--no-warn-execstack \
    $(arm-none-eabi-nm -g --defined-only "$2" | sed -n 's/.* T \(margalhosa_.*\)/-Wl,-u,\1/p') "${@:4}" -o "$3"
  arm-none-eabi-objdump -d "$3" >"$3.dis"
}
plugin() { # cycles.so for this emulator
  local version=1
  if [ "$(qemu-system-arm --version | sed -n 's/.*version \([0-9]*\).*/\1/p')" -ge 9 ]; then version=2; fi
  gcc -O2 -shared -fPIC -DPLUGIN_VERSION=$version "$src/cycles.c" -o "$out/cycles.so"
}
