.stabs "b.c",100,0,0,Ltext0
.text
Ltext0:
.stabs "int:t(0,1)=r(0,1);-2147483648;2147483647;",128,0,0,0
.stabs "list.h",130,0,0,0
.stabs "list:T(1,1)=s8val:(0,1),0,32;next:(1,2)=*(1,1),32,32;;",128,0,0,0
.stabn 162,0,0,0
.stabs "stdio.h",130,0,0,0
.stabs "size_t:t(2,1)=(0,1)",128,0,0,0
.stabn 162,0,0,0
.globl _f
_f:
.stabs "f:F(0,1)",36,0,7,_f
.stabn 68,0,8,LM1
LM1:
.long 0
LE:
.stabn 100,0,0,LE
