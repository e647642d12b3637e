.stabs "/w/",100,0,0,Ltext0
.stabs "a.c",100,0,0,Ltext0
.text
Ltext0:
.stabs "gcc2_compiled.",60,0,0,0
.stabs "int:t(0,1)=r(0,1);-2147483648;2147483647;",128,0,0,0
.stabs "stdio.h",130,0,0,0
.stabs "size_t:t(1,1)=(0,1)",128,0,0,0
.stabn 162,0,0,0
.stabs "list.h",130,0,0,0
.stabs "list:T(2,1)=s8val:(0,1),0,32;next:(2,2)=*(2,1),32,32;;",128,0,0,0
.stabn 162,0,0,0
.globl _main
_main:
.stabs "main:F(0,1)",36,0,3,_main
.stabs "argc:p(0,1)",160,0,0,8
.stabn 68,0,4,LM1
LM1:
.long 0
.stabn 68,0,5,LM2
LM2:
.long _f
.stabs "head:(0,2)=*(2,1)",128,0,0,-4
.stabn 192,0,0,LM1-Ltext0
.stabn 224,0,0,LE-Ltext0
LE:
.comm _total,4
.stabs "total:G(0,1)",32,0,0,0
.stabn 100,0,0,LE
