import java.nio.file.Files;
import java.nio.file.Path;
import java.util.ArrayList;
import java.util.Arrays;
import java.util.List;
import jdk.internal.org.objectweb.asm.ClassWriter;
import jdk.internal.org.objectweb.asm.Label;
import jdk.internal.org.objectweb.asm.MethodVisitor;
import jdk.internal.org.objectweb.asm.Opcodes;

/**
 * Runs the rows of the table in real Java: a class for each, with the row's frame, its instruction
 * as bytecode, and then a dump of the frame. Java's verifier must let through each row that goes
 * on, branches or throws, and refuse each fault for the reason that the row names. From this
 * folder:
 *
 * <pre>java --add-exports java.base/jdk.internal.org.objectweb.asm=ALL-UNNAMED RunRows.java ../data/answers/plain.txt</pre>
 */
public class RunRows implements Opcodes {
    public static final Object[] REFERENCES = new Object[10];
    public static final StringBuilder DUMP = new StringBuilder();
    static final int TARGET = 9;

    /** A row's parts, and what the frame's dump would be. */
    record Row(String[] instruction, int maxStack, List<String> stack, List<String> locals, String flow, List<String> stackAfter, List<String> localsAfter) {
        static List<String> words(String text) {
            return text.isBlank() ? List.of() : Arrays.asList(text.trim().split(" +"));
        }

        static Row of(String text) {
            String[] parts = text.split("\\|", -1);
            String[] before = parts[2].split(";", -1);
            String[] after = parts[4].split(";", -1);
            return new Row(parts[0].trim().split(" "), Integer.parseInt(parts[1].trim()), words(before[0]), words(before.length > 1 ? before[1] : ""), parts[3].trim(), words(after[0]), words(after.length > 1 ? after[1] : ""));
        }

        boolean isFault() {
            return List.of("Underflow", "Overflow", "WrongTag", "BadLocal").contains(flow);
        }

        boolean isThrow() {
            return flow.contains("/");
        }
    }

    static final class Loader extends ClassLoader {
        Loader() {
            super(RunRows.class.getClassLoader());
        }

        Class<?> define(byte[] bytes) {
            return defineClass("Made", bytes, 0, bytes.length);
        }
    }

    public static void number(long n) {
        DUMP.append(' ').append(n).append('L');
    }

    public static void number(int n) {
        DUMP.append(' ').append(n);
    }

    public static void reference(Object o) {
        DUMP.append(' ').append(o == null ? "null" : "#" + Arrays.asList(REFERENCES).indexOf(o));
    }

    public static void flow(int n) {
        DUMP.append(n == 0 ? "on" : "to " + n);
    }

    static char typeOf(String word) {
        return word.equals("null") || word.startsWith("#") ? 'A' : word.endsWith("L") ? 'J' : 'I';
    }

    /** Parameters for the locals that are set; - stands only after a long or at the end. */
    static String descriptor(List<String> locals) {
        StringBuilder text = new StringBuilder("(");
        for (String word : locals) {
            text.append(word.equals("-") ? "" : typeOf(word) == 'A' ? "Ljava/lang/Object;" : "" + typeOf(word));
        }
        return text + ")V";
    }

    static void push(MethodVisitor m, String word) {
        if (word.equals("null")) {
            m.visitInsn(ACONST_NULL);
        } else if (word.startsWith("#")) {
            m.visitFieldInsn(GETSTATIC, "Made", "r" + word.substring(1), "Ljava/lang/Object;");
        } else if (word.endsWith("L")) {
            m.visitLdcInsn(Long.valueOf(word.substring(0, word.length() - 1)));
        } else {
            m.visitLdcInsn(Integer.valueOf(word));
        }
    }

    static void dump(MethodVisitor m, char type) {
        if (type == 'A') {
            m.visitMethodInsn(INVOKESTATIC, "RunRows", "reference", "(Ljava/lang/Object;)V", false);
        } else {
            m.visitMethodInsn(INVOKESTATIC, "RunRows", "number", "(" + type + ")V", false);
        }
    }

    /** What the row leaves, from the top of the stack down and then the locals. */
    static String wanted(Row row) {
        StringBuilder text = new StringBuilder(row.flow);
        for (int i = row.stackAfter.size() - 1; i >= 0; i--) {
            text.append(' ').append(row.stackAfter.get(i));
        }
        for (String word : row.localsAfter) {
            text.append(word.equals("-") ? "" : " " + word);
        }
        return text.toString();
    }

    static void dumpFrame(MethodVisitor m, Row row, int flow) {
        m.visitIntInsn(BIPUSH, flow);
        m.visitMethodInsn(INVOKESTATIC, "RunRows", "flow", "(I)V", false);
        for (int i = row.stackAfter.size() - 1; i >= 0; i--) {
            dump(m, typeOf(row.stackAfter.get(i)));
        }
        for (int n = 0; n < row.localsAfter.size(); n++) {
            if (!row.localsAfter.get(n).equals("-")) {
                char type = typeOf(row.localsAfter.get(n));
                m.visitVarInsn(type == 'A' ? ALOAD : type == 'J' ? LLOAD : ILOAD, n);
                dump(m, type);
            }
        }
        m.visitInsn(RETURN);
    }

    static int opcode(String mnemonic) throws ReflectiveOperationException {
        return Opcodes.class.getField(mnemonic.toUpperCase().replace("GOTO_W", "GOTO")).getInt(null);
    }

    /** ASM writes the short form where there is one, so iload 1 and iload_1 are one here. */
    static void instruction(MethodVisitor m, String[] words, Label[] targets) throws ReflectiveOperationException {
        String name = words[0];
        if (name.equals("tableswitch")) {
            m.visitTableSwitchInsn(-1, 1, targets[TARGET], targets[20], targets[21], targets[22]);
        } else if (name.equals("lookupswitch")) {
            m.visitLookupSwitchInsn(targets[TARGET], new int[] {-2147483648, -5, 0, 7, 2147483647}, Arrays.copyOfRange(targets, 20, 25));
        } else if (name.matches("[ila](load|store)(_\\d)?")) {
            String[] parts = name.split("_");
            m.visitVarInsn(opcode(parts[0]), Integer.parseInt(parts.length > 1 ? parts[1] : words[1]));
        } else if (name.equals("iinc")) {
            m.visitIincInsn(Integer.parseInt(words[1]), Integer.parseInt(words[2]));
        } else if (name.endsWith("ipush")) {
            m.visitIntInsn(opcode(name), Integer.parseInt(words[1]));
        } else if (words.length > 1) {
            m.visitJumpInsn(opcode(name), targets[TARGET]);
        } else {
            m.visitInsn(opcode(name));
        }
    }

    /** A load of one local variable after the instruction. */
    record Load(int opcode, int number) {}

    /** The row's code, then a load or a dump where one is wanted, which need more room than the row. */
    static Class<?> made(Row row, boolean dumps, Load load) throws ReflectiveOperationException {
        ClassWriter c = new ClassWriter(0);
        c.visit(V1_5, ACC_PUBLIC, "Made", null, "java/lang/Object", null);
        for (int n = 0; n < REFERENCES.length; n++) {
            c.visitField(ACC_PUBLIC | ACC_STATIC, "r" + n, "Ljava/lang/Object;", null, null);
        }
        MethodVisitor m = c.visitMethod(ACC_PUBLIC | ACC_STATIC, "run", descriptor(row.locals), null, null);
        m.visitCode();
        for (String word : row.stack) {
            push(m, word);
        }
        Label[] targets = new Label[25];
        Arrays.setAll(targets, n -> new Label());
        instruction(m, row.instruction, targets);
        for (int n = 0; n < targets.length; n++) {
            if (n == 0 || n == TARGET || n >= 20) {
                m.visitLabel(targets[n]);
                if (load != null) {
                    m.visitVarInsn(load.opcode, load.number);
                }
                if (dumps) {
                    dumpFrame(m, row, n);
                } else {
                    m.visitInsn(RETURN);
                }
            }
        }
        m.visitMaxs(row.maxStack + (dumps || load != null ? 2 : 0), row.locals.size());
        m.visitEnd();
        c.visitEnd();
        return new Loader().define(c.toByteArray());
    }

    static Object valueOf(String word) {
        char type = typeOf(word);
        return word.equals("null") ? null : type == 'A' ? REFERENCES[Integer.parseInt(word.substring(1))] : type == 'J' ? (Object) Long.valueOf(word.substring(0, word.length() - 1)) : (Object) Integer.valueOf(word);
    }

    static String run(Row row) throws ReflectiveOperationException {
        DUMP.setLength(0);
        Class<?> c = made(row, !row.isThrow(), null);
        for (int n = 0; n < REFERENCES.length; n++) {
            c.getField("r" + n).set(null, REFERENCES[n]);
        }
        Object[] arguments = row.locals.stream().filter(w -> !w.equals("-")).map(RunRows::valueOf).toArray();
        try {
            c.getMethods()[0].invoke(null, arguments);
        } catch (java.lang.reflect.InvocationTargetException e) {
            return e.getCause().getClass().getName().replace('.', '/');
        }
        return DUMP.toString();
    }

    /** What the verifier says of the row; empty where it lets the row through. */
    static String refusal(Row row, Load load) throws ReflectiveOperationException {
        try {
            Class.forName("Made", true, made(row, false, load).getClassLoader());
            return "";
        } catch (VerifyError e) {
            return e.getMessage();
        }
    }

    /** The faults that the verifier's message may stand for; a long's second place is BadLocal. */
    static List<String> faults(String message) {
        if (message.contains("Unable to pop operand off an empty stack")) {
            return List.of("Underflow");
        }
        if (message.contains("Stack size too large")) {
            return List.of("Overflow");
        }
        if (message.contains("Expecting to find") || message.contains("Attempt to split long or double")) {
            return List.of("WrongTag");
        }
        if (message.contains("Illegal local variable number") || message.contains("Accessing value from uninitialized register")) {
            return List.of("BadLocal");
        }
        return message.contains("contains wrong type") ? List.of("WrongTag", "BadLocal") : List.of();
    }

    /** Empty where Java agrees with the row. */
    static String check(Row row) throws ReflectiveOperationException {
        String refusal = refusal(row, null);
        if (row.isFault()) {
            return faults(refusal).contains(row.flow) ? "" : "the verifier says: " + refusal;
        }
        if (!refusal.isEmpty()) {
            return refusal;
        }
        String got = run(row);
        String want = row.isThrow() ? row.flow : wanted(row);
        if (!got.equals(want)) {
            return got;
        }
        for (int n = 0; n < row.localsAfter.size(); n++) {
            for (int opcode : new int[] {ILOAD, LLOAD, ALOAD}) {
                if (row.localsAfter.get(n).equals("-") && refusal(row, new Load(opcode, n)).isEmpty()) {
                    return "local variable " + n + " can be loaded";
                }
            }
        }
        return "";
    }

    public static void main(String[] args) throws Exception {
        Arrays.setAll(REFERENCES, n -> new Object());
        List<String> rows = new ArrayList<>();
        for (String file : args) {
            Files.readAllLines(Path.of(file)).stream().filter(line -> !line.startsWith("#")).forEach(line -> rows.add(line.replace(" =>", " |")));
        }
        int faults = 0;
        int differing = 0;
        for (String text : rows) {
            Row row = Row.of(text);
            String answer;
            try {
                answer = check(row);
            } catch (LinkageError e) {
                answer = e.toString();
            }
            faults += row.isFault() ? 1 : 0;
            if (!answer.isEmpty()) {
                differing++;
                System.out.println(text + " -- " + answer);
            }
        }
        System.out.println(rows.size() + " rows, " + faults + " of them refused by the verifier, " + differing + " differ");
    }
}
