.bytecode 52.0
.source Below.java
.class public Below
.super java/lang/Object

.method public <init>()V
  .limit stack 1
  .limit locals 1
  .line 2
  aload_0  ; 0
  invokespecial   java/lang/Object/<init>()V  ; 1
  return  ; 2
.end method

.method static table(II)[[Ljava/lang/String;
  .limit stack 2
  .limit locals 2
  .line 4
  iload_0  ; 0
  iload_1  ; 1
  multianewarray  [[Ljava/lang/String; 2  ; 2
  areturn  ; 3
.end method

.method static cells([[Ljava/lang/String;)I
  .limit stack 2
  .limit locals 6
  .line 8
  iconst_0  ; 0
  istore_1  ; 1
  .line 9
  aload_0  ; 2
  astore_2  ; 3
  aload_2  ; 4
  arraylength  ; 5
  istore_3  ; 6
  iconst_0  ; 7
  istore          4  ; 8
L9:
  iload           4  ; 9
  iload_3  ; 10
  if_icmpge       L23  ; 11
  aload_2  ; 12
  iload           4  ; 13
  aaload  ; 14
  astore          5  ; 15
  .line 10
  iload_1  ; 16
  aload           5  ; 17
  arraylength  ; 18
  iadd  ; 19
  istore_1  ; 20
  .line 9
  iinc            4 1  ; 21
  goto            L9  ; 22
L23:
  .line 12
  iload_1  ; 23
  ireturn  ; 24
.end method

.method public static main([Ljava/lang/String;)V
  .limit stack 3
  .limit locals 3
  .catch all from L2 to L8 using L12
  .line 16
  iconst_3  ; 0
  istore_1  ; 1
L2:
  .line 18
  getstatic       java/lang/System/out Ljava/io/PrintStream;  ; 2
  iconst_4  ; 3
  iload_1  ; 4
  invokestatic    Below/table(II)[[Ljava/lang/String;  ; 5
  invokestatic    Below/cells([[Ljava/lang/String;)I  ; 6
  invokevirtual   java/io/PrintStream/println(I)V  ; 7
L8:
  .line 20
  getstatic       java/lang/System/out Ljava/io/PrintStream;  ; 8
  iload_1  ; 9
  invokevirtual   java/io/PrintStream/println(I)V  ; 10
  .line 21
  goto            L18  ; 11
L12:
  .line 20
  astore_2  ; 12
  getstatic       java/lang/System/out Ljava/io/PrintStream;  ; 13
  iload_1  ; 14
  invokevirtual   java/io/PrintStream/println(I)V  ; 15
  .line 21
  aload_2  ; 16
  athrow  ; 17
L18:
  .line 16
  iinc            1 -2  ; 18
  goto            L2  ; 19
.end method
