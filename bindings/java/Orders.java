import covetrivet.Caller;
import covetrivet.Counts;
import covetrivet.Draft;
import covetrivet.Manager;
import covetrivet.Work;
import java.util.ArrayList;
import java.util.List;
import java.util.Map;
import java.util.Optional;
import java.util.TreeMap;
import java.util.concurrent.atomic.AtomicBoolean;

/** The order system of examples/library/orders.c on four threads. */
public final class Orders {
  static final int ORDERS = 200, MOST = 70;

  static void serve(Caller me, int stage, AtomicBoolean closing) {
    while (!closing.get()) {
      Optional<Work> work = me.claimNext(stage);
      if (work.isEmpty()) {
        Thread.yield();
        continue;
      }
      long[] body = work.get().element().body();
      if (stage == 1) body[2] = body[1] * (10 + body[0] % 5);
      if (stage == 2 && body[2] > MOST) {
        me.abort();
        continue;
      }
      if (stage == 3) body[3] = 1;
      me.commit(new Draft(stage == 3 ? Draft.REPLIES : stage + 1, body));
    }
  }

  public static void main(String[] given) throws InterruptedException {
    try (Manager manager = new Manager(4, 256, 1024, 0, 3)) {
      AtomicBoolean closing = new AtomicBoolean();
      List<Thread> threads = new ArrayList<>();
      int shipped = 0, declined = 0;
      try (Caller client = manager.open()) {
        for (int k = 1; k <= 3; k++) {
          int stage = k;
          Caller me = manager.open();
          threads.add(new Thread(() -> {
            try (me) {
              serve(me, stage, closing);
            }
          }));
        }
        threads.forEach(Thread::start);
        Map<Integer, Long> waiting = new TreeMap<>();
        for (long n = 0; n < ORDERS; n++) waiting.put(client.submit(1, n, 1 + n % 7), n);
        while (shipped + declined < ORDERS) {
          for (Map.Entry<Integer, Long> order : List.copyOf(waiting.entrySet())) {
            long n = order.getValue();
            Optional<covetrivet.Element> reply = client.collectNext(order.getKey());
            if (reply.isEmpty()) continue;
            if (reply.get().body()[0] != n || reply.get().body()[3] != 1) throw new AssertionError("a reply to another order");
            waiting.remove(order.getKey());
            shipped++;
          }
          if (client.nextError(0).isPresent()) {
            client.kill(client.nextError(0).getAsInt());
            declined++;
          }
          Thread.yield();
        }
        closing.set(true);
        for (Thread it : threads) it.join();
      }
      Counts all = manager.account(0);
      System.out.printf("%d orders: %d shipped, %d declined%n", ORDERS, shipped, declined);
      System.out.printf("waiting %d, held %d, consumed %d, parked %d, killed %d%n", all.waiting(), all.held(), all.consumed(), all.parked(), all.killed());
    }
  }
}
