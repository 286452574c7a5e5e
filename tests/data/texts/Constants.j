; Static fields that begin with a constant (ConstantValue), of each kind that has one.
.class public final Constants
.super java/lang/Object

.field public static final ANSWER I = 42
.field static final LETTER C = 65
.field static final SMALL B = -128
.field static final YES Z = 1
.field static final SHORT S = 0x7fff
.field public static final FAR J = -9223372036854775808
.field private static final TEXT Ljava/lang/String; = "a \"text\"\twith \\ signs\u0021"
.field static plain I

.method public static main([Ljava/lang/String;)V
    .limit stack 4
    .limit locals 1
    getstatic java/lang/System/out Ljava/io/PrintStream;
    dup
    getstatic Constants/ANSWER I
    invokevirtual java/io/PrintStream/println(I)V
    dup
    getstatic Constants/LETTER C
    invokevirtual java/io/PrintStream/println(C)V
    dup
    getstatic Constants/SMALL B
    invokevirtual java/io/PrintStream/println(I)V
    dup
    getstatic Constants/YES Z
    invokevirtual java/io/PrintStream/println(I)V
    dup
    getstatic Constants/SHORT S
    invokevirtual java/io/PrintStream/println(I)V
    dup
    getstatic Constants/FAR J
    invokevirtual java/io/PrintStream/println(J)V
    dup
    getstatic Constants/TEXT Ljava/lang/String;
    invokevirtual java/io/PrintStream/println(Ljava/lang/String;)V
    getstatic Constants/plain I
    invokevirtual java/io/PrintStream/println(I)V
    return
.end method
