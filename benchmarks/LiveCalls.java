import static java.lang.invoke.MethodType.methodType;

import java.lang.invoke.CallSite;
import java.lang.invoke.MethodHandle;
import java.lang.invoke.MethodHandles;
import java.lang.invoke.MutableCallSite;
import java.lang.invoke.SwitchPoint;
import java.lang.invoke.VolatileCallSite;
import java.util.ArrayList;
import java.util.List;
import java.util.concurrent.CountDownLatch;
import java.util.concurrent.ExecutorService;
import java.util.concurrent.Executors;
import java.util.concurrent.Future;
import java.util.concurrent.locks.LockSupport;

/**
 * Times calls of a site by several threads while one retargets it: {@code java LiveCalls.java KIND CALLERS PER_SECOND SECONDS}.
 * The tree is that of f in the README's first example, called with 1. A call is exact, through a spreader, with boxed arguments,
 * as in Calls.java. It prints one line, of words and numbers.
 *
 * <p>KIND is {@code mutable}, a {@link MutableCallSite} with {@code syncAll} after each {@code setTarget}, or {@code volatile}, a
 * {@link VolatileCallSite}. HotSpot's compiler takes the target of either for a constant and throws code away at a {@code setTarget},
 * so calls are fast alone and slow beside retargetings; which kind is the better one is left to the figures.
 */
public final class LiveCalls {
    private static final MethodHandles.Lookup LOOKUP = MethodHandles.lookup();
    private static final int CALLS_OF_A_ROUND = 10_000;
    private static final double WARM_UP = 2;

    private static volatile boolean over;

    static boolean ieq(int x, int y) { return x == y; }
    static int iadd(int x, int y) { return x + y; }
    static int ineg(int x) { return -x; }

    /** The calls of a thread, and the nanoseconds that it spent. */
    private record Made(long calls, long nanoseconds) {}

    /** The retargetings: their number, the nanoseconds from the first to the last, those of all together, and the longest. */
    private record Retargetings(long number, long lasting, long sum, long longest) {}

    private static MethodHandle op(String name, Class<?> ret, Class<?>... kinds) {
        try {
            return LOOKUP.findStatic(LiveCalls.class, name, methodType(ret, kinds));
        } catch (ReflectiveOperationException error) {
            throw new AssertionError(error);
        }
    }

    private static MethodHandle withOne(String name, Class<?> ret) {
        return MethodHandles.insertArguments(op(name, ret, int.class, int.class), 1, 1);
    }

    private static MethodHandle tree() {
        MethodHandle hundred = MethodHandles.dropArguments(MethodHandles.constant(int.class, 100), 0, int.class);
        MethodHandle guarded = MethodHandles.guardWithTest(withOne("ieq", boolean.class), hundred, withOne("iadd", int.class));
        return new SwitchPoint().guardWithTest(guarded, op("ineg", int.class, int.class));
    }

    private static MethodHandle spread(MethodHandle tree) {
        MethodHandle spread = tree.asSpreader(Object[].class, tree.type().parameterCount());
        return spread.asType(methodType(Object.class, Object[].class));
    }

    private static void round(MethodHandle handle, Object[] arguments) throws Throwable {
        long sum = 0;
        for (int call = 0; call < CALLS_OF_A_ROUND; call++) {
            Object answer = (Object) handle.invokeExact(arguments);
            sum += (Integer) answer;
        }
        if (sum != 100L * CALLS_OF_A_ROUND) {
            throw new AssertionError("another answer");
        }
    }

    private static Made call(MethodHandle handle, CountDownLatch ready) throws Exception {
        Object[] arguments = {1};
        ready.countDown();
        ready.await();
        long start = System.nanoTime();
        long calls = 0;
        while (!over) {
            try {
                round(handle, arguments);
            } catch (Throwable error) {
                throw new AssertionError(error);
            }
            calls += CALLS_OF_A_ROUND;
        }
        return new Made(calls, System.nanoTime() - start);
    }

    private static void await(long time) {
        for (long left = time - System.nanoTime(); left > 0; left = time - System.nanoTime()) {
            LockSupport.parkNanos(left);
        }
    }

    private static CallSite site(String kind, MethodHandle tree) {
        return switch (kind) {
            case "mutable" -> new MutableCallSite(tree);
            case "volatile" -> new VolatileCallSite(tree);
            default -> throw new IllegalArgumentException(kind);
        };
    }

    private static void setTarget(CallSite site, MethodHandle tree) {
        site.setTarget(tree);
        if (site instanceof MutableCallSite mutable) {
            MutableCallSite.syncAll(new MutableCallSite[] {mutable});
        }
    }

    private static Retargetings retarget(CallSite site, MethodHandle[] trees, long perSecond, double seconds) {
        long number = 0;
        long sum = 0;
        long longest = 0;
        long start = System.nanoTime();
        long end = start + (long) (seconds * 1e9);
        for (; perSecond > 0 && System.nanoTime() < end; number++) {
            await(start + (number + 1) * 1_000_000_000 / perSecond);
            long before = System.nanoTime();
            setTarget(site, trees[(int) (number % trees.length)]);
            long took = System.nanoTime() - before;
            sum += took;
            longest = Math.max(longest, took);
        }
        await(end);
        return new Retargetings(number, System.nanoTime() - start, sum, longest);
    }

    private static String run(ExecutorService threads, String kind, int callers, long perSecond, double seconds) throws Exception {
        MethodHandle[] trees = {tree(), tree()};
        CallSite site = site(kind, trees[1]);
        MethodHandle handle = spread(site.dynamicInvoker());
        CountDownLatch ready = new CountDownLatch(callers + 1);
        over = false;
        List<Future<Made>> called = new ArrayList<>();
        for (int caller = 0; caller < callers; caller++) {
            called.add(threads.submit(() -> call(handle, ready)));
        }
        ready.countDown();
        ready.await();
        Retargetings made = retarget(site, trees, perSecond, seconds);
        over = true;
        long calls = 0;
        long nanoseconds = 0;
        for (Future<Made> it : called) {
            calls += it.get().calls();
            nanoseconds += it.get().nanoseconds();
        }
        return "workers " + callers + " calls " + calls + " nanoseconds " + nanoseconds + " retargetings " + made.number()
            + " lasting " + made.lasting() + " mean " + made.sum() / Math.max(made.number(), 1) + " longest " + made.longest();
    }

    public static void main(String[] words) throws Exception {
        String kind = words[0];
        int callers = Integer.parseInt(words[1]);
        long perSecond = Long.parseLong(words[2]);
        ExecutorService threads = Executors.newFixedThreadPool(callers);
        run(threads, kind, callers, perSecond, WARM_UP);
        System.out.println(run(threads, kind, callers, perSecond, Double.parseDouble(words[3])));
        threads.shutdown();
    }
}
