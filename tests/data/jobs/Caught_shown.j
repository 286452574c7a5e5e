.bytecode 52.0
.source Caught.java
.class Caught
.super java/lang/Object

.field static depth I

.method <init>()V
  .limit stack 1
  .limit locals 1
  .line 2
  aload_0  ; 0
  invokespecial   java/lang/Object/<init>()V  ; 1
  return  ; 2
.end method

.method static divide(II)I
  .limit stack 2
  .limit locals 2
  .line 20
  iload_0  ; 0
  iload_1  ; 1
  idiv  ; 2
  ireturn  ; 3
.end method

.method static finallyReturns(I)I
  .limit stack 2
  .limit locals 4
  .catch java/lang/ArithmeticException from L0 to L4 using L9
  .catch all from L0 to L4 using L17
  .catch all from L9 to L12 using L17
L0:
  .line 25
  bipush          10  ; 0
  iload_0  ; 1
  invokestatic    Caught/divide(II)I  ; 2
  istore_1  ; 3
L4:
  .line 29
  getstatic       java/lang/System/out Ljava/io/PrintStream;  ; 4
  ldc             "finally"  ; 5
  invokevirtual   java/io/PrintStream/println(Ljava/lang/String;)V  ; 6
  .line 25
  iload_1  ; 7
  ireturn  ; 8
L9:
  .line 26
  astore_1  ; 9
  .line 27
  iconst_m1  ; 10
  istore_2  ; 11
L12:
  .line 29
  getstatic       java/lang/System/out Ljava/io/PrintStream;  ; 12
  ldc             "finally"  ; 13
  invokevirtual   java/io/PrintStream/println(Ljava/lang/String;)V  ; 14
  .line 27
  iload_2  ; 15
  ireturn  ; 16
L17:
  .line 29
  astore_3  ; 17
  getstatic       java/lang/System/out Ljava/io/PrintStream;  ; 18
  ldc             "finally"  ; 19
  invokevirtual   java/io/PrintStream/println(Ljava/lang/String;)V  ; 20
  .line 30
  aload_3  ; 21
  athrow  ; 22
.end method

.method static nested(I)I
  .limit stack 3
  .limit locals 4
  .catch Caught$Worse from L2 to L18 using L20
  .catch all from L2 to L18 using L30
  .catch all from L20 to L28 using L30
  .catch Caught$Refused from L2 to L34 using L35
  .line 34
  iconst_0  ; 0
  istore_1  ; 1
L2:
  .line 37
  iload_0  ; 2
  ifne            L9  ; 3
  .line 38
  new             Caught$Worse  ; 4
  dup  ; 5
  bipush          7  ; 6
  invokespecial   Caught$Worse/<init>(I)V  ; 7
  athrow  ; 8
L9:
  .line 40
  iload_0  ; 9
  iconst_1  ; 10
  if_icmpne       L17  ; 11
  .line 41
  new             Caught$Refused  ; 12
  dup  ; 13
  bipush          8  ; 14
  invokespecial   Caught$Refused/<init>(I)V  ; 15
  athrow  ; 16
L17:
  .line 43
  iinc            1 1  ; 17
L18:
  .line 47
  iinc            1 100  ; 18
  .line 48
  goto            L34  ; 19
L20:
  .line 44
  astore_2  ; 20
  .line 45
  iload_1  ; 21
  aload_2  ; 22
  getfield        Caught$Worse/code I  ; 23
  bipush          10  ; 24
  imul  ; 25
  iadd  ; 26
  istore_1  ; 27
L28:
  .line 47
  iinc            1 100  ; 28
  .line 48
  goto            L34  ; 29
L30:
  .line 47
  astore_3  ; 30
  iinc            1 100  ; 31
  .line 48
  aload_3  ; 32
  athrow  ; 33
L34:
  .line 51
  goto            L43  ; 34
L35:
  .line 49
  astore_2  ; 35
  .line 50
  iload_1  ; 36
  aload_2  ; 37
  getfield        Caught$Refused/code I  ; 38
  sipush          1000  ; 39
  imul  ; 40
  iadd  ; 41
  istore_1  ; 42
L43:
  .line 52
  iload_1  ; 43
  ireturn  ; 44
.end method

.method static rethrow(I)V
  .limit stack 2
  .limit locals 2
  .catch java/lang/RuntimeException from L0 to L4 using L5
L0:
  .line 57
  iload_0  ; 0
  iconst_0  ; 1
  invokestatic    Caught/divide(II)I  ; 2
  pop  ; 3
L4:
  .line 61
  goto            L11  ; 4
L5:
  .line 58
  astore_1  ; 5
  .line 59
  getstatic       java/lang/System/out Ljava/io/PrintStream;  ; 6
  ldc             "again"  ; 7
  invokevirtual   java/io/PrintStream/println(Ljava/lang/String;)V  ; 8
  .line 60
  aload_1  ; 9
  athrow  ; 10
L11:
  .line 62
  return  ; 11
.end method

.method static inHandler([I)V
  .limit stack 3
  .limit locals 4
  .catch java/lang/ArrayIndexOutOfBoundsException from L0 to L5 using L6
L0:
  .line 66
  aload_0  ; 0
  aload_0  ; 1
  arraylength  ; 2
  iconst_1  ; 3
  iastore  ; 4
L5:
  .line 70
  goto            L12  ; 5
L6:
  .line 67
  astore_1  ; 6
  .line 68
  ldc             "text"  ; 7
  astore_2  ; 8
  .line 69
  aload_2  ; 9
  checkcast       Caught$Integers  ; 10
  astore_3  ; 11
L12:
  .line 71
  return  ; 12
.end method

.method static deeper()V
  .limit stack 2
  .limit locals 0
  .line 77
  getstatic       Caught/depth I  ; 0
  iconst_1  ; 1
  iadd  ; 2
  putstatic       Caught/depth I  ; 3
  .line 78
  invokestatic    Caught/deeper()V  ; 4
  .line 79
  return  ; 5
.end method

.method static recovered()I
  .limit stack 2
  .limit locals 2
  .catch java/lang/StackOverflowError from L2 to L3 using L4
  .line 82
  getstatic       Caught/depth I  ; 0
  istore_0  ; 1
L2:
  .line 84
  invokestatic    Caught/deeper()V  ; 2
L3:
  .line 87
  goto            L12  ; 3
L4:
  .line 85
  astore_1  ; 4
  .line 86
  getstatic       Caught/depth I  ; 5
  iload_0  ; 6
  if_icmple       L10  ; 7
  iconst_1  ; 8
  goto            L11  ; 9
L10:
  iconst_0  ; 10
L11:
  ireturn  ; 11
L12:
  .line 88
  iconst_2  ; 12
  ireturn  ; 13
.end method

.method static loop()I
  .limit stack 3
  .limit locals 4
  .catch java/lang/ArithmeticException from L7 to L10 using L25
  .catch java/lang/ArithmeticException from L12 to L15 using L25
  .catch java/lang/ArithmeticException from L17 to L23 using L25
  .catch all from L7 to L10 using L29
  .catch all from L12 to L15 using L29
  .catch all from L17 to L23 using L29
  .catch all from L25 to L27 using L29
  .line 92
  iconst_0  ; 0
  istore_0  ; 1
  .line 93
  iconst_0  ; 2
  istore_1  ; 3
L4:
  iload_1  ; 4
  bipush          6  ; 5
  if_icmpge       L35  ; 6
L7:
  .line 95
  iload_1  ; 7
  iconst_1  ; 8
  if_icmpne       L12  ; 9
L10:
  .line 105
  iinc            0 1000  ; 10
  .line 96
  goto            L33  ; 11
L12:
  .line 98
  iload_1  ; 12
  iconst_4  ; 13
  if_icmpne       L17  ; 14
L15:
  .line 105
  iinc            0 1000  ; 15
  .line 99
  goto            L35  ; 16
L17:
  .line 101
  iload_0  ; 17
  bipush          12  ; 18
  iload_1  ; 19
  invokestatic    Caught/divide(II)I  ; 20
  iadd  ; 21
  istore_0  ; 22
L23:
  .line 105
  iinc            0 1000  ; 23
  .line 106
  goto            L33  ; 24
L25:
  .line 102
  astore_2  ; 25
  .line 103
  iinc            0 100  ; 26
L27:
  .line 105
  iinc            0 1000  ; 27
  .line 106
  goto            L33  ; 28
L29:
  .line 105
  astore_3  ; 29
  iinc            0 1000  ; 30
  .line 106
  aload_3  ; 31
  athrow  ; 32
L33:
  .line 93
  iinc            1 1  ; 33
  goto            L4  ; 34
L35:
  .line 108
  iload_0  ; 35
  ireturn  ; 36
.end method

.method public static main([Ljava/lang/String;)V
  .limit stack 4
  .limit locals 2
  .catch java/lang/ArithmeticException from L19 to L21 using L22
  .catch java/lang/ClassCastException from L26 to L29 using L30
  .catch java/lang/NullPointerException from L43 to L45 using L45
  .catch java/lang/ArrayStoreException from L49 to L58 using L59
  .catch java/lang/NegativeArraySizeException from L63 to L68 using L69
  .catch java/lang/IndexOutOfBoundsException from L73 to L78 using L79
  .line 112
  getstatic       java/lang/System/out Ljava/io/PrintStream;  ; 0
  iconst_5  ; 1
  invokestatic    Caught/finallyReturns(I)I  ; 2
  invokevirtual   java/io/PrintStream/println(I)V  ; 3
  .line 113
  getstatic       java/lang/System/out Ljava/io/PrintStream;  ; 4
  iconst_0  ; 5
  invokestatic    Caught/finallyReturns(I)I  ; 6
  invokevirtual   java/io/PrintStream/println(I)V  ; 7
  .line 114
  iconst_0  ; 8
  istore_1  ; 9
L10:
  iload_1  ; 10
  iconst_4  ; 11
  if_icmpge       L19  ; 12
  .line 115
  getstatic       java/lang/System/out Ljava/io/PrintStream;  ; 13
  iload_1  ; 14
  invokestatic    Caught/nested(I)I  ; 15
  invokevirtual   java/io/PrintStream/println(I)V  ; 16
  .line 114
  iinc            1 1  ; 17
  goto            L10  ; 18
L19:
  .line 118
  iconst_1  ; 19
  invokestatic    Caught/rethrow(I)V  ; 20
L21:
  .line 121
  goto            L26  ; 21
L22:
  .line 119
  astore_1  ; 22
  .line 120
  getstatic       java/lang/System/out Ljava/io/PrintStream;  ; 23
  ldc             "outside"  ; 24
  invokevirtual   java/io/PrintStream/println(Ljava/lang/String;)V  ; 25
L26:
  .line 123
  iconst_3  ; 26
  newarray        int  ; 27
  invokestatic    Caught/inHandler([I)V  ; 28
L29:
  .line 126
  goto            L34  ; 29
L30:
  .line 124
  astore_1  ; 30
  .line 125
  getstatic       java/lang/System/out Ljava/io/PrintStream;  ; 31
  ldc             "in a handler"  ; 32
  invokevirtual   java/io/PrintStream/println(Ljava/lang/String;)V  ; 33
L34:
  .line 127
  getstatic       java/lang/System/out Ljava/io/PrintStream;  ; 34
  invokestatic    Caught/recovered()I  ; 35
  invokevirtual   java/io/PrintStream/println(I)V  ; 36
  .line 128
  getstatic       java/lang/System/out Ljava/io/PrintStream;  ; 37
  invokestatic    Caught/recovered()I  ; 38
  invokevirtual   java/io/PrintStream/println(I)V  ; 39
  .line 129
  getstatic       java/lang/System/out Ljava/io/PrintStream;  ; 40
  invokestatic    Caught/loop()I  ; 41
  invokevirtual   java/io/PrintStream/println(I)V  ; 42
L43:
  .line 131
  aconst_null  ; 43
  athrow  ; 44
L45:
  .line 132
  astore_1  ; 45
  .line 133
  getstatic       java/lang/System/out Ljava/io/PrintStream;  ; 46
  ldc             "null"  ; 47
  invokevirtual   java/io/PrintStream/println(Ljava/lang/String;)V  ; 48
L49:
  .line 136
  iconst_1  ; 49
  anewarray       java/lang/String  ; 50
  astore_1  ; 51
  .line 137
  aload_1  ; 52
  iconst_0  ; 53
  new             Caught  ; 54
  dup  ; 55
  invokespecial   Caught/<init>()V  ; 56
  aastore  ; 57
L58:
  .line 140
  goto            L63  ; 58
L59:
  .line 138
  astore_1  ; 59
  .line 139
  getstatic       java/lang/System/out Ljava/io/PrintStream;  ; 60
  ldc             "store"  ; 61
  invokevirtual   java/io/PrintStream/println(Ljava/lang/String;)V  ; 62
L63:
  .line 142
  getstatic       java/lang/System/out Ljava/io/PrintStream;  ; 63
  iconst_m1  ; 64
  newarray        int  ; 65
  arraylength  ; 66
  invokevirtual   java/io/PrintStream/println(I)V  ; 67
L68:
  .line 145
  goto            L73  ; 68
L69:
  .line 143
  astore_1  ; 69
  .line 144
  getstatic       java/lang/System/out Ljava/io/PrintStream;  ; 70
  ldc             "negative"  ; 71
  invokevirtual   java/io/PrintStream/println(Ljava/lang/String;)V  ; 72
L73:
  .line 147
  getstatic       java/lang/System/out Ljava/io/PrintStream;  ; 73
  ldc             "abc"  ; 74
  iconst_3  ; 75
  invokevirtual   java/lang/String/charAt(I)C  ; 76
  invokevirtual   java/io/PrintStream/println(C)V  ; 77
L78:
  .line 150
  goto            L83  ; 78
L79:
  .line 148
  astore_1  ; 79
  .line 149
  getstatic       java/lang/System/out Ljava/io/PrintStream;  ; 80
  ldc             "index"  ; 81
  invokevirtual   java/io/PrintStream/println(Ljava/lang/String;)V  ; 82
L83:
  .line 151
  return  ; 83
.end method
