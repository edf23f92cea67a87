// LLVM's demangler for compare/bench: whether it answers a symbol, behind which a zero stands. The text is let go.
#include <cstdlib>
#include <llvm/Config/llvm-config.h>
#include <llvm/Demangle/Demangle.h>

extern "C" bool llvm_answers(const char *symbol, std::size_t length) {
#if LLVM_VERSION_MAJOR < 17
  (void)length;
  char *text = llvm::microsoftDemangle(symbol, nullptr, nullptr, nullptr, nullptr);
#else
  char *text = llvm::microsoftDemangle({symbol, length}, nullptr, nullptr);
#endif
  bool answered = text != nullptr;
  std::free(text);
  return answered;
}
