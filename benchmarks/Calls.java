import static java.lang.invoke.MethodType.methodType;

import java.lang.invoke.MethodHandle;
import java.lang.invoke.MethodHandles;
import java.lang.invoke.MethodType;
import java.lang.invoke.MutableCallSite;
import java.lang.invoke.SwitchPoint;

/**
 * Times calls of a tree of method handles: {@code java Calls.java SUBJECT ROUNDS RUNS}. The trees and arguments are those of
 * crates/bench, and a call is exact, through a spreader, with boxed arguments. The handle is no constant to the compiler, which
 * would otherwise take the calls out of the loop. It prints the sum of the answers of one run, and the least nanoseconds of
 * the runs.
 */
public final class Calls {
    private static final MethodHandles.Lookup LOOKUP = MethodHandles.lookup();
    private static final Class<?>[] FOUR = {int.class, String.class, boolean.class, long.class};

    static boolean ieq(int x, int y) { return x == y; }
    static int iadd(int x, int y) { return x + y; }
    static int idiv(int x, int y) { return x / y; }
    static int ineg(int x) { return -x; }
    static long ladd(long x, long y) { return x + y; }
    static boolean llt(long x, long y) { return x < y; }
    static long i2l(int x) { return x; }
    static boolean not(boolean x) { return !x; }
    static String concat(String x, String y) { return x.concat(y); }

    private static MethodHandle op(String name, Class<?> ret, Class<?>... kinds) {
        try {
            return LOOKUP.findStatic(Calls.class, name, methodType(ret, kinds));
        } catch (ReflectiveOperationException error) {
            throw new AssertionError(error);
        }
    }

    private static MethodHandle with(MethodHandle target, int position, Object value) {
        return MethodHandles.insertArguments(target, position, value);
    }

    private static MethodHandle always(Class<?> kind, Object value, Class<?>... kinds) {
        return MethodHandles.dropArguments(MethodHandles.constant(kind, value), 0, kinds);
    }

    private static MethodHandle counted() {
        MethodHandle more = with(op("iadd", int.class, int.class, int.class), 1, 1);
        MethodHandle test = with(op("ieq", boolean.class, int.class, int.class), 1, 1);
        MethodHandle guarded = MethodHandles.guardWithTest(test, always(int.class, 100, int.class), more);
        return new SwitchPoint().guardWithTest(guarded, op("ineg", int.class, int.class));
    }

    private static MethodHandle isEleven() {
        MethodHandle not = op("not", boolean.class, boolean.class);
        MethodHandle equal = op("ieq", boolean.class, int.class, int.class);
        MethodHandle notZero = MethodHandles.filterReturnValue(with(equal, 1, 0), not);
        MethodHandle quotient = with(op("idiv", int.class, int.class, int.class), 0, 10);
        MethodHandle tenth = MethodHandles.guardWithTest(notZero, quotient, always(int.class, 0, int.class));
        MethodHandle sum = MethodHandles.foldArguments(op("iadd", int.class, int.class, int.class), tenth);
        return MethodHandles.filterReturnValue(sum, with(equal, 1, 11));
    }

    private static MethodHandle isNegative() {
        MethodHandle sum = op("ladd", long.class, long.class, long.class);
        MethodHandle wide = MethodHandles.filterArguments(sum, 0, op("i2l", long.class, int.class), null);
        MethodHandle below = with(op("llt", boolean.class, long.class, long.class), 1, 0L);
        MethodHandle negative = MethodHandles.filterReturnValue(wide, below);
        return MethodHandles.permuteArguments(negative, methodType(boolean.class, FOUR), 0, 3);
    }

    private static MethodHandle everyCombinator() {
        MethodHandle concat = op("concat", String.class, String.class, String.class);
        MethodHandle greeting = MethodHandles.dropArguments(with(concat, 0, "hello, "), 1, boolean.class, long.class);
        MethodHandle greet = MethodHandles.dropArguments(greeting, 0, int.class);
        MethodHandle negative = always(String.class, "negative", FOUR);
        MethodHandle third = MethodHandles.guardWithTest(isNegative(), negative, greet);
        MethodType flagType = methodType(boolean.class, FOUR);
        MethodHandle flag = MethodHandles.permuteArguments(MethodHandles.identity(boolean.class), flagType, 2);
        MethodHandle twice = MethodHandles.permuteArguments(concat, methodType(String.class, FOUR), 1, 1);
        MethodHandle second = MethodHandles.guardWithTest(flag, twice, third);
        // (a test of guardWithTest may have fewer parameters than its target)
        MethodHandle first = MethodHandles.guardWithTest(isEleven(), always(String.class, "eleven", FOUR), second);
        return new SwitchPoint().guardWithTest(first, greet);
    }

    /** A call through so many sites, each of which hands on its argument to the next, and the last to ineg. */
    private static MethodHandle invoking(int sites) {
        MethodHandle target = op("ineg", int.class, int.class);
        for (int site = 0; site < sites; site++) {
            target = new MutableCallSite(target).dynamicInvoker();
        }
        return target;
    }

    private static MethodHandle tree(String subject) {
        return switch (subject) {
            case "f1", "f2" -> counted();
            case "operation" -> op("ineg", int.class, int.class);
            case "constant" -> MethodHandles.constant(int.class, 5);
            case "concat" -> op("concat", String.class, String.class, String.class);
            case "one-site" -> invoking(1);
            case "two-sites" -> invoking(2);
            case "three-sites" -> invoking(3);
            default -> everyCombinator();
        };
    }

    private static Object[] arguments(String subject) {
        return switch (subject) {
            case "f1" -> new Object[] {1};
            case "f2", "operation", "one-site", "two-sites", "three-sites" -> new Object[] {2};
            case "constant" -> new Object[] {};
            case "concat" -> new Object[] {"ab", "cd"};
            case "eleven" -> new Object[] {1, "ab", false, 0L};
            case "twice" -> new Object[] {0, "ab", true, 0L};
            case "negative" -> new Object[] {5, "ab", false, -6L};
            case "greet" -> new Object[] {5, "ab", false, -5L};
            default -> throw new IllegalArgumentException(subject);
        };
    }

    private static MethodHandle spread(MethodHandle tree) {
        MethodHandle spread = tree.asSpreader(Object[].class, tree.type().parameterCount());
        return spread.asType(methodType(Object.class, Object[].class));
    }

    private static long magnitude(Object answer) {
        return answer instanceof Integer number ? Math.abs((long) number) : ((String) answer).length();
    }

    private static long sum(MethodHandle handle, Object[] arguments, long rounds) throws Throwable {
        long sum = 0;
        for (long round = 0; round < rounds; round++) {
            Object answer = (Object) handle.invokeExact(arguments);
            sum += magnitude(answer);
        }
        return sum;
    }

    public static void main(String[] words) throws Throwable {
        MethodHandle handle = spread(tree(words[0]));
        Object[] arguments = arguments(words[0]);
        long rounds = Long.parseLong(words[1]);
        long sum = 0;
        long least = Long.MAX_VALUE;
        for (int run = 0; run < Integer.parseInt(words[2]); run++) {
            long start = System.nanoTime();
            sum = sum(handle, arguments, rounds);
            least = Math.min(least, System.nanoTime() - start);
        }
        System.out.println(sum + " " + least);
    }
}
