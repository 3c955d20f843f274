"""The opcodes of the machine's profile, after the opcode maps of the SDM, volume 2, appendix A.

The tables are in the order and the operand letters of the appendix (A.2.1 and A.2.2): a method (E, G, I, J, M, R, C, D,
X, Y) and a type (b, v, w, z, q). Z is a register by the low three bits of the opcode, which the appendix names one by
one. U is an immediate without a sign (counts of shifts, numbers of INT and RET, ports), which the appendix writes as I.
R is also E where only the register form is in the profile. d64 and f64 are the appendix's superscripts: 64 bits as a
rule, and 64 bits always. A dash is a form without an operand. MOVFC, MOVTC and MOVTD are MOV from and to a control
register and to a debug register.
"""

ONE_BYTE = """
00    ADD    Eb,Gb
01    ADD    Ev,Gv
02    ADD    Gb,Eb
03    ADD    Gv,Ev
04    ADD    AL,Ib
05    ADD    rAX,Iz
08    OR     Eb,Gb
09    OR     Ev,Gv
0A    OR     Gb,Eb
0B    OR     Gv,Ev
0C    OR     AL,Ib
0D    OR     rAX,Iz
10    ADC    Eb,Gb
11    ADC    Ev,Gv
12    ADC    Gb,Eb
13    ADC    Gv,Ev
14    ADC    AL,Ib
15    ADC    rAX,Iz
18    SBB    Eb,Gb
19    SBB    Ev,Gv
1A    SBB    Gb,Eb
1B    SBB    Gv,Ev
1C    SBB    AL,Ib
1D    SBB    rAX,Iz
20    AND    Eb,Gb
21    AND    Ev,Gv
22    AND    Gb,Eb
23    AND    Gv,Ev
24    AND    AL,Ib
25    AND    rAX,Iz
28    SUB    Eb,Gb
29    SUB    Ev,Gv
2A    SUB    Gb,Eb
2B    SUB    Gv,Ev
2C    SUB    AL,Ib
2D    SUB    rAX,Iz
30    XOR    Eb,Gb
31    XOR    Ev,Gv
32    XOR    Gb,Eb
33    XOR    Gv,Ev
34    XOR    AL,Ib
35    XOR    rAX,Iz
38    CMP    Eb,Gb
39    CMP    Ev,Gv
3A    CMP    Gb,Eb
3B    CMP    Gv,Ev
3C    CMP    AL,Ib
3D    CMP    rAX,Iz
50-57 PUSH   Zv          d64
58-5F POP    Zv          d64
63    MOVSXD Gv,Ev       with REX.W
68    PUSH   Iz          d64
69    IMUL   Gv,Ev,Iz
6A    PUSH   Ib          d64
6B    IMUL   Gv,Ev,Ib
70-7F Jcc    Jb          f64
80/0  ADD    Eb,Ib
80/1  OR     Eb,Ib
80/2  ADC    Eb,Ib
80/3  SBB    Eb,Ib
80/4  AND    Eb,Ib
80/5  SUB    Eb,Ib
80/6  XOR    Eb,Ib
80/7  CMP    Eb,Ib
81/0  ADD    Ev,Iz
81/1  OR     Ev,Iz
81/2  ADC    Ev,Iz
81/3  SBB    Ev,Iz
81/4  AND    Ev,Iz
81/5  SUB    Ev,Iz
81/6  XOR    Ev,Iz
81/7  CMP    Ev,Iz
83/0  ADD    Ev,Ib
83/1  OR     Ev,Ib
83/2  ADC    Ev,Ib
83/3  SBB    Ev,Ib
83/4  AND    Ev,Ib
83/5  SUB    Ev,Ib
83/6  XOR    Ev,Ib
83/7  CMP    Ev,Ib
84    TEST   Eb,Gb
85    TEST   Ev,Gv
86    XCHG   Eb,Gb
87    XCHG   Ev,Gv
88    MOV    Eb,Gb
89    MOV    Ev,Gv
8A    MOV    Gb,Eb
8B    MOV    Gv,Ev
8D    LEA    Gv,M
8F/0  POP    Ev          d64
90    NOP    -           without REX.B
90    XCHG   rAX,Zv      with REX.B
91-97 XCHG   rAX,Zv
98    CBW    -           v, size 16
98    CWDE   -           v, size 32
98    CDQE   -           v, size 64
99    CWD    -           v, size 16
99    CDQ    -           v, size 32
99    CQO    -           v, size 64
9C    PUSHFQ -           d64
9D    POPFQ  -           d64
A4    MOVS   Yb,Xb
A5    MOVS   Yv,Xv
A6    CMPS   Xb,Yb
A7    CMPS   Xv,Yv
A8    TEST   AL,Ib
A9    TEST   rAX,Iz
AA    STOS   Yb,AL
AB    STOS   Yv,rAX
AC    LODS   AL,Xb
AD    LODS   rAX,Xv
AE    SCAS   AL,Yb
AF    SCAS   rAX,Yv
B0-B7 MOV    Zb,Ib
B8-BF MOV    Zv,Iv
C0/0  ROL    Eb,Ub
C0/1  ROR    Eb,Ub
C0/4  SHL    Eb,Ub
C0/5  SHR    Eb,Ub
C0/7  SAR    Eb,Ub
C1/0  ROL    Ev,Ub
C1/1  ROR    Ev,Ub
C1/4  SHL    Ev,Ub
C1/5  SHR    Ev,Ub
C1/7  SAR    Ev,Ub
C2    RET    Uw          f64
C3    RET    -           f64
C6/0  MOV    Eb,Ib
C7/0  MOV    Ev,Iz
C9    LEAVE  -           f64
CC    INT3   -
CD    INT    Ub
CF    IRETQ  -           with REX.W
D0/0  ROL    Eb,1
D0/1  ROR    Eb,1
D0/4  SHL    Eb,1
D0/5  SHR    Eb,1
D0/7  SAR    Eb,1
D1/0  ROL    Ev,1
D1/1  ROR    Ev,1
D1/4  SHL    Ev,1
D1/5  SHR    Ev,1
D1/7  SAR    Ev,1
D2/0  ROL    Eb,CL
D2/1  ROR    Eb,CL
D2/4  SHL    Eb,CL
D2/5  SHR    Eb,CL
D2/7  SAR    Eb,CL
D3/0  ROL    Ev,CL
D3/1  ROR    Ev,CL
D3/4  SHL    Ev,CL
D3/5  SHR    Ev,CL
D3/7  SAR    Ev,CL
E0    LOOPNE Jb          f64
E1    LOOPE  Jb          f64
E2    LOOP   Jb          f64
E3    JRCXZ  Jb          f64
E4    IN     AL,Ub
E6    OUT    Ub,AL
E8    CALL   Jz          f64
E9    JMP    Jz          f64
EB    JMP    Jb          f64
EC    IN     AL,DX
EE    OUT    DX,AL
F4    HLT    -
F5    CMC    -
F6/0  TEST   Eb,Ib
F6/2  NOT    Eb
F6/3  NEG    Eb
F6/4  MUL    Eb
F6/5  IMUL   Eb
F6/6  DIV    Eb
F6/7  IDIV   Eb
F7/0  TEST   Ev,Iz
F7/2  NOT    Ev
F7/3  NEG    Ev
F7/4  MUL    Ev
F7/5  IMUL   Ev
F7/6  DIV    Ev
F7/7  IDIV   Ev
F8    CLC    -
F9    STC    -
FA    CLI    -
FB    STI    -
FC    CLD    -
FD    STD    -
FE/0  INC    Eb
FE/1  DEC    Eb
FF/0  INC    Ev
FF/1  DEC    Ev
FF/2  CALL   Ev          f64
FF/4  JMP    Ev          f64
FF/6  PUSH   Ev          d64
"""

TWO_BYTE = """
00/2  LLDT   Ew
00/3  LTR    Ew
01/2  LGDT   Ms
01/3  LIDT   Ms
01/6  LMSW   Ew
01/7  INVLPG Mb
0B    UD2    -
1E    NOP    Ev          no access
1F    NOP    Ev          no access
20    MOVFC  Rq,Cq
22    MOVTC  Cq,Rq
23    MOVTD  Dq,Rq
30    WRMSR  -
40-4F CMOVcc Gv,Ev
80-8F Jcc    Jz          f64
90-9F SETcc  Eb
A3    BT     Rv,Gv
AB    BTS    Rv,Gv
AE/5  LFENCE -           register form
AE/6  MFENCE -           register form
AE/7  SFENCE -           register form
AF    IMUL   Gv,Ev
B0    CMPXCHG Eb,Gb
B1    CMPXCHG Ev,Gv
B3    BTR    Rv,Gv
B6    MOVZX  Gv,Eb
B7    MOVZX  Gv,Ew
BA/4  BT     Ev,Ib
BA/5  BTS    Ev,Ib
BA/6  BTR    Ev,Ib
BA/7  BTC    Ev,Ib
BB    BTC    Rv,Gv
BC    BSF    Gv,Ev
BD    BSR    Gv,Ev
BE    MOVSX  Gv,Eb
BF    MOVSX  Gv,Ew
C0    XADD   Eb,Gb
C1    XADD   Ev,Gv
C8-CF BSWAP  Zv          size 32 or 64
"""
