#!/bin/sh
# Compiles the Java programs under data/java, data/explore, data/refused and data/first_year
# again, and prints their tables, and what a real Java prints when it runs those that have a
# main (data/java/printed.txt, data/first_year/printed.txt) and the worked class file
# (data/printed.txt). Where an
# exception ends the first thread, what Java says of it stands there in the words of
# jm run. A constant is read when the program runs only where the compiler knows
# none: Reading is compiled with the classes of stub/. Needs java, javac and javap
# of JDK 9 to 19 (the last that compile for release 7), and python3. No check runs
# this: the class files and what is printed are committed.
set -eu
cd "$(dirname "$0")/data/java"
rm -f ./*.class
folder=$(mktemp -d)
trap 'rm -rf "$folder"' EXIT

compile() {
    javac -Xlint:-options -nowarn -encoding US-ASCII "$@"
}

# Runs a program, and tells the exception that has ended it.
run() {
    java -cp . "$1" 2> "$folder/said" && return
    ended=$(grep '^Exception in thread "main" ' "$folder/said")
    echo "$ended" | tr . / |
        sed 's/^Exception in thread "main" \([^: ]*\).*/jm: thread 1 ended by \1/'
}

compile --release 8 Marker.java Empty.java Arithmetic.java LongArithmetic.java \
    Comparisons.java Switches.java Loops.java Recursion.java Arrays.java \
    Constants.java Texts.java Shapes.java Generic.java LinkedStack.java \
    Anonymous.java Nested.java Varargs.java Interfaces.java ManyLocals.java \
    ManyConstants.java FarJump.java Caught.java Starting.java \
    Given.java GivenAlone.java GivenNames.java Unwound.java FailedAbove.java \
    FailedStart.java MultiArray.java
compile --release 8 -d "$folder" stub/*.java
compile --release 8 -cp "$folder" Reading.java
compile --release 8 -g Exceptions.java BuiltInFaults.java Locks.java \
    Threads.java Initializers.java Casts.java OldMembers.java BoundedBuffer.java \
    SharedCounter.java Deadlock.java NoRows.java Below.java
compile --release 8 -g:none Fields.java Evaluation.java
compile --release 8 Product.java Flood.java Volume.java Ragged.java
compile --release 7 -cp . Callback.java Calls.java Conditions.java Queens.java \
    Floyd.java Garbage.java
compile --release 7 -g Sorting.java Tree.java
compile --release 7 -g:none Matrix.java Machine.java Hash.java
python3 ../../expected.py ./*.class > expected.txt
for source in *.java; do
    name=${source%.java}
    grep -q 'static void main(' "$source" || continue
    # two threads that wait for one another for ever
    [ "$name" != Deadlock ] || continue
    echo "== $name"
    run "$name"
done > printed.txt

cp ../sum.class "$folder/Main.class"
{
    echo "== sum"
    java -cp "$folder" Main
} > ../printed.txt

cd ../explore
rm -f ./*.class
compile --release 8 *.java

cd ../refused
rm -f ./*.class
for source in *.java; do
    case $source in
        Version61.java) compile --release 17 "$source" ;;
        *) compile --release 8 "$source" ;;
    esac
done

cd ../first_year
rm -f ./*.class
compile --release 8 *.java
for source in *.java; do
    name=${source%.java}
    # a loop without an end
    [ "$name" != Forever ] || continue
    echo "== $name"
    # (Quiz is the one that reads)
    echo 12 | java -cp . "$name" 2> "$folder/said" || true
done > printed.txt
