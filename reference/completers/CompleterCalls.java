import java.lang.reflect.Method;
import java.util.ArrayList;
import java.util.HashMap;
import java.util.List;
import java.util.Map;
import java.util.concurrent.CountedCompleter;

/**
 * What Java's own CountedCompleter does on small trees: the values that the tests of completion_core expect.
 * Run it with: java reference/completers/CompleterCalls.java
 */
public class CompleterCalls {
    static final List<String> ran = new ArrayList<>();
    static final Map<String, Task> tasks = new HashMap<>();

    static class Task extends CountedCompleter<Void> {
        final String name;

        Task(String name, CountedCompleter<?> completer, int pending) {
            super(completer, pending);
            this.name = name;
        }

        @Override
        public void compute() {}

        @Override
        public void onCompletion(CountedCompleter<?> caller) {
            ran.add(name);
        }

        @Override
        public String toString() {
            return name;
        }
    }

    /** Begins anew with some tasks, each as its name, the name of its completer or -, and its pending count. */
    static void tree(String... rows) {
        ran.clear();
        tasks.clear();
        System.out.println(String.join(", ", rows));
        for (String row : rows) {
            String[] words = row.split(" ");
            tasks.put(words[0], new Task(words[0], tasks.get(words[1]), Integer.parseInt(words[2])));
        }
    }

    /** Makes a call of a task, such as "left tryComplete", and prints its answer and what became of a task. */
    static void call(String text, String watched) throws ReflectiveOperationException {
        String[] words = text.split(" ");
        boolean hasNumber = words.length > 2;
        Method method = hasNumber ? Task.class.getMethod(words[1], int.class) : Task.class.getMethod(words[1]);
        Object answer = hasNumber ? method.invoke(tasks.get(words[0]), Integer.parseInt(words[2])) : method.invoke(tasks.get(words[0]));
        Task task = tasks.get(watched);
        System.out.println("    " + text + " -> " + (method.getReturnType() == void.class ? "" : answer) + ", pending of " + watched + " "
            + task.getPendingCount() + ", done " + task.isDone() + ", ran " + ran);
    }

    public static void main(String[] none) throws ReflectiveOperationException {
        tree("top - 1", "left top 0", "right top 0");
        call("left tryComplete", "top");
        call("right tryComplete", "top");
        tree("top - 0", "middle top 1", "leaf middle 0");
        call("leaf propagateCompletion", "middle");
        call("middle propagateCompletion", "top");
        tree("task - 1");
        call("task firstComplete", "task");
        call("task firstComplete", "task");
        tree("top - 1", "left top 0", "right top 0");
        call("left firstComplete", "left");
        call("left nextComplete", "top");
        call("right firstComplete", "right");
        call("right nextComplete", "top");
        call("top nextComplete", "top");
        tree("task - 0");
        call("task addToPendingCount 2", "task");
        call("task firstComplete", "task");
        call("task firstComplete", "task");
        call("task firstComplete", "task");
        tree("top - 0", "middle top 0", "leaf middle 0");
        call("leaf getRoot", "top");
        call("top getRoot", "top");
        call("leaf tryComplete", "top");
    }
}
