; a method that lacks its ireturn: javac refuses the Java of it ("missing return statement")
.class public Square
.super java/lang/Object

.method public static square(I)I
  .limit stack 2
  .limit locals 1
  iload_0
  iload_0
  imul
.end method

.method public static main([Ljava/lang/String;)V
  .limit stack 2
  .limit locals 1
  getstatic java/lang/System/out Ljava/io/PrintStream;
  bipush 7
  invokestatic Square/square(I)I
  invokevirtual java/io/PrintStream/println(I)V
  return
.end method
