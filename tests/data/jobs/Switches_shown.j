.bytecode 52.0
.source Switches.java
.class public Switches
.super java/lang/Object

.method public <init>()V
  .limit stack 1
  .limit locals 1
  .line 2
  aload_0  ; 0
  invokespecial   java/lang/Object/<init>()V  ; 1
  return  ; 2
.end method

.method static close(I)I
  .limit stack 1
  .limit locals 1
  .line 4
  iload_0  ; 0
  tableswitch     -2  ; 1
    L2
    L4
    L4
    L11
    L6
    L11
    L11
    L8
    L9
    default : L11
L2:
  .line 6
  bipush          20  ; 2
  ireturn  ; 3
L4:
  .line 9
  bipush          30  ; 4
  ireturn  ; 5
L6:
  .line 11
  bipush          40  ; 6
  ireturn  ; 7
L8:
  .line 13
  iinc            0 100  ; 8
L9:
  .line 15
  iload_0  ; 9
  ireturn  ; 10
L11:
  .line 17
  iconst_m1  ; 11
  ireturn  ; 12
.end method

.method static apart(I)I
  .limit stack 1
  .limit locals 2
  .line 22
  iconst_0  ; 0
  istore_1  ; 1
  .line 23
  iload_0  ; 2
  lookupswitch  ; 3
    -2147483648 : L4
    -1000 : L7
    70000 : L10
    2147483647 : L13
    default : L15
L4:
  .line 25
  iconst_1  ; 4
  istore_1  ; 5
  .line 26
  goto            L15  ; 6
L7:
  .line 28
  iconst_2  ; 7
  istore_1  ; 8
  .line 29
  goto            L15  ; 9
L10:
  .line 31
  iconst_3  ; 10
  istore_1  ; 11
  .line 32
  goto            L15  ; 12
L13:
  .line 34
  iconst_4  ; 13
  istore_1  ; 14
L15:
  .line 36
  iload_1  ; 15
  ireturn  ; 16
.end method

.method static letter(C)Ljava/lang/String;
  .limit stack 1
  .limit locals 1
  .line 40
  iload_0  ; 0
  lookupswitch  ; 1
    32 : L4
    97 : L2
    101 : L2
    105 : L2
    111 : L2
    117 : L2
    default : L6
L2:
  .line 46
  ldc             "vowel"  ; 2
  areturn  ; 3
L4:
  .line 48
  ldc             "blank"  ; 4
  areturn  ; 5
L6:
  .line 50
  ldc             "other"  ; 6
  areturn  ; 7
.end method

.method static nested(II)I
  .limit stack 1
  .limit locals 2
  .line 55
  iload_0  ; 0
  lookupswitch  ; 1
    1 : L2
    1000000 : L12
    default : L14
L2:
  .line 57
  iload_1  ; 2
  tableswitch     1  ; 3
    L4
    L6
    L8
    default : L10
L4:
  .line 58
  bipush          11  ; 4
  ireturn  ; 5
L6:
  .line 59
  bipush          12  ; 6
  ireturn  ; 7
L8:
  .line 60
  bipush          13  ; 8
  ireturn  ; 9
L10:
  .line 62
  bipush          10  ; 10
  ireturn  ; 11
L12:
  .line 64
  bipush          7  ; 12
  ireturn  ; 13
L14:
  .line 66
  iconst_0  ; 14
  ireturn  ; 15
.end method

.method public static main([Ljava/lang/String;)V
  .limit stack 3
  .limit locals 2
  .line 70
  bipush          -3  ; 0
  istore_1  ; 1
L2:
  iload_1  ; 2
  bipush          8  ; 3
  if_icmpge       L14  ; 4
  .line 71
  getstatic       java/lang/System/out Ljava/io/PrintStream;  ; 5
  iload_1  ; 6
  invokestatic    Switches/close(I)I  ; 7
  invokevirtual   java/io/PrintStream/print(I)V  ; 8
  .line 72
  getstatic       java/lang/System/out Ljava/io/PrintStream;  ; 9
  bipush          32  ; 10
  invokevirtual   java/io/PrintStream/print(C)V  ; 11
  .line 70
  iinc            1 1  ; 12
  goto            L2  ; 13
L14:
  .line 74
  getstatic       java/lang/System/out Ljava/io/PrintStream;  ; 14
  invokevirtual   java/io/PrintStream/println()V  ; 15
  .line 75
  getstatic       java/lang/System/out Ljava/io/PrintStream;  ; 16
  ldc             -2147483648  ; 17
  invokestatic    Switches/apart(I)I  ; 18
  ldc             70000  ; 19
  invokestatic    Switches/apart(I)I  ; 20
  iadd  ; 21
  iconst_3  ; 22
  invokestatic    Switches/apart(I)I  ; 23
  iadd  ; 24
  invokevirtual   java/io/PrintStream/println(I)V  ; 25
  .line 76
  getstatic       java/lang/System/out Ljava/io/PrintStream;  ; 26
  bipush          101  ; 27
  invokestatic    Switches/letter(C)Ljava/lang/String;  ; 28
  invokevirtual   java/io/PrintStream/println(Ljava/lang/String;)V  ; 29
  .line 77
  getstatic       java/lang/System/out Ljava/io/PrintStream;  ; 30
  bipush          32  ; 31
  invokestatic    Switches/letter(C)Ljava/lang/String;  ; 32
  invokevirtual   java/io/PrintStream/println(Ljava/lang/String;)V  ; 33
  .line 78
  getstatic       java/lang/System/out Ljava/io/PrintStream;  ; 34
  iconst_1  ; 35
  iconst_3  ; 36
  invokestatic    Switches/nested(II)I  ; 37
  invokevirtual   java/io/PrintStream/println(I)V  ; 38
  .line 79
  return  ; 39
.end method
