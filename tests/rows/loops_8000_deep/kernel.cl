// Each function has 100 loops, one in the other, and calls the one before it in the innermost.
#define DO do do do do do do do do do do
#define BEGIN DO DO DO DO DO DO DO DO DO DO
#define WHILE while (0); while (0); while (0); while (0); while (0); while (0); while (0); while (0); while (0); while (0);
#define END WHILE WHILE WHILE WHILE WHILE WHILE WHILE WHILE WHILE WHILE
void f0() { }
void f1() { BEGIN f0(); END }
void f2() { BEGIN f1(); END }
void f3() { BEGIN f2(); END }
void f4() { BEGIN f3(); END }
void f5() { BEGIN f4(); END }
void f6() { BEGIN f5(); END }
void f7() { BEGIN f6(); END }
void f8() { BEGIN f7(); END }
void f9() { BEGIN f8(); END }
void f10() { BEGIN f9(); END }
void f11() { BEGIN f10(); END }
void f12() { BEGIN f11(); END }
void f13() { BEGIN f12(); END }
void f14() { BEGIN f13(); END }
void f15() { BEGIN f14(); END }
void f16() { BEGIN f15(); END }
void f17() { BEGIN f16(); END }
void f18() { BEGIN f17(); END }
void f19() { BEGIN f18(); END }
void f20() { BEGIN f19(); END }
void f21() { BEGIN f20(); END }
void f22() { BEGIN f21(); END }
void f23() { BEGIN f22(); END }
void f24() { BEGIN f23(); END }
void f25() { BEGIN f24(); END }
void f26() { BEGIN f25(); END }
void f27() { BEGIN f26(); END }
void f28() { BEGIN f27(); END }
void f29() { BEGIN f28(); END }
void f30() { BEGIN f29(); END }
void f31() { BEGIN f30(); END }
void f32() { BEGIN f31(); END }
void f33() { BEGIN f32(); END }
void f34() { BEGIN f33(); END }
void f35() { BEGIN f34(); END }
void f36() { BEGIN f35(); END }
void f37() { BEGIN f36(); END }
void f38() { BEGIN f37(); END }
void f39() { BEGIN f38(); END }
void f40() { BEGIN f39(); END }
void f41() { BEGIN f40(); END }
void f42() { BEGIN f41(); END }
void f43() { BEGIN f42(); END }
void f44() { BEGIN f43(); END }
void f45() { BEGIN f44(); END }
void f46() { BEGIN f45(); END }
void f47() { BEGIN f46(); END }
void f48() { BEGIN f47(); END }
void f49() { BEGIN f48(); END }
void f50() { BEGIN f49(); END }
void f51() { BEGIN f50(); END }
void f52() { BEGIN f51(); END }
void f53() { BEGIN f52(); END }
void f54() { BEGIN f53(); END }
void f55() { BEGIN f54(); END }
void f56() { BEGIN f55(); END }
void f57() { BEGIN f56(); END }
void f58() { BEGIN f57(); END }
void f59() { BEGIN f58(); END }
void f60() { BEGIN f59(); END }
void f61() { BEGIN f60(); END }
void f62() { BEGIN f61(); END }
void f63() { BEGIN f62(); END }
void f64() { BEGIN f63(); END }
void f65() { BEGIN f64(); END }
void f66() { BEGIN f65(); END }
void f67() { BEGIN f66(); END }
void f68() { BEGIN f67(); END }
void f69() { BEGIN f68(); END }
void f70() { BEGIN f69(); END }
void f71() { BEGIN f70(); END }
void f72() { BEGIN f71(); END }
void f73() { BEGIN f72(); END }
void f74() { BEGIN f73(); END }
void f75() { BEGIN f74(); END }
void f76() { BEGIN f75(); END }
void f77() { BEGIN f76(); END }
void f78() { BEGIN f77(); END }
void f79() { BEGIN f78(); END }
void f80() { BEGIN f79(); END }
__kernel void deep(__global int *a)
{
  f80();
  a[0] = 1;
}
