.bytecode 52.0
.source Constants.java
.class public Constants
.super java/lang/Object

.field public static final ZERO I = 0
.field public static final SMALL I = 127
.field public static final MIDDLE I = 32767
.field public static final LARGE I = 1234567890
.field public static final LEAST I = -2147483648
.field public static final LONG J = 81985529216486895
.field public static final LONG_LEAST J = -9223372036854775808
.field protected static final CHAR C = 65535
.field protected static final BYTE B = -128
.field static final SHORT S = -32768
.field static final YES Z = 1
.field static final NO Z = 0
.field private static final TEXT Ljava/lang/String; = "constant"
.field private static final EMPTY Ljava/lang/String; = ""
.field private static final JOINED Ljava/lang/String; = "constant-1234567890-true"
.field final instance I
.field final wide J
.field transient dropped I
.field volatile seen J
.field static variable I

.method public <init>()V
  .limit stack 3
  .limit locals 1
  .line 2
  aload_0
  invokespecial   java/lang/Object/<init>()V
  .line 18
  aload_0
  iconst_5
  putfield        Constants/instance I
  .line 19
  aload_0
  ldc2_w          8589934592
  putfield        Constants/wide J
  .line 20
  aload_0
  iconst_m1
  putfield        Constants/dropped I
  return
.end method

.method sum()J
  .limit stack 5
  .limit locals 1
  .line 25
  aload_0
  ldc2_w          8589934597
  aload_0
  getfield        Constants/dropped I
  i2l
  ladd
  getstatic       Constants/variable I
  i2l
  ladd
  putfield        Constants/seen J
  .line 26
  aload_0
  getfield        Constants/seen J
  lreturn
.end method

.method public static main([Ljava/lang/String;)V
  .limit stack 3
  .limit locals 2
  .line 30
  new             Constants
  dup
  invokespecial   Constants/<init>()V
  astore_1
  .line 31
  getstatic       java/lang/System/out Ljava/io/PrintStream;
  ldc             -912882864
  invokevirtual   java/io/PrintStream/println(I)V
  .line 32
  getstatic       java/lang/System/out Ljava/io/PrintStream;
  ldc2_w          81985529216486895
  invokevirtual   java/io/PrintStream/println(J)V
  .line 33
  getstatic       java/lang/System/out Ljava/io/PrintStream;
  ldc2_w          -9223372036854775808
  invokevirtual   java/io/PrintStream/println(J)V
  .line 34
  getstatic       java/lang/System/out Ljava/io/PrintStream;
  ldc             65535
  invokevirtual   java/io/PrintStream/println(I)V
  .line 35
  getstatic       java/lang/System/out Ljava/io/PrintStream;
  ldc             -32896
  invokevirtual   java/io/PrintStream/println(I)V
  .line 36
  getstatic       java/lang/System/out Ljava/io/PrintStream;
  bipush          84
  invokevirtual   java/io/PrintStream/println(C)V
  .line 37
  getstatic       java/lang/System/out Ljava/io/PrintStream;
  ldc             "constant-1234567890-true"
  invokevirtual   java/io/PrintStream/println(Ljava/lang/String;)V
  .line 38
  getstatic       java/lang/System/out Ljava/io/PrintStream;
  ldc             ""
  invokevirtual   java/lang/String/length()I
  invokevirtual   java/io/PrintStream/println(I)V
  .line 39
  getstatic       java/lang/System/out Ljava/io/PrintStream;
  aload_1
  invokevirtual   Constants/sum()J
  invokevirtual   java/io/PrintStream/println(J)V
  .line 40
  return
.end method

.method static <clinit>()V
  .limit stack 1
  .limit locals 0
  .line 22
  bipush          17
  putstatic       Constants/variable I
  return
.end method
