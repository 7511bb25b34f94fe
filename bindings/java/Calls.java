import covetrivet.Caller;
import covetrivet.Counts;
import covetrivet.Draft;
import covetrivet.Manager;
import covetrivet.Moved;
import covetrivet.Refused;
import covetrivet.Work;
import java.util.Arrays;
import java.util.List;

/** Each call once, refusals, and a caller that nothing holds any more. */
public final class Calls {
  static void so(boolean that, Object what) {
    if (!that) throw new AssertionError(what);
  }

  static void refused(int code, Runnable call) {
    try {
      call.run();
    } catch (Refused it) {
      so(it.code == code, it);
      return;
    }
    throw new AssertionError("not refused as " + code);
  }

  static void oneElement() {
    Manager manager = new Manager(2, 8, 8, 1, 2);
    Caller client = manager.open(), server = manager.open(1);
    so(client.number() == 0 && server.number() == 1, "numbers");
    refused(Refused.NO_PART, manager::open);
    refused(Refused.BAD_STAGE, () -> client.submit(0));
    refused(Refused.BAD_STAGE, () -> client.submit(257));
    int root = client.submit(1, 2, 3);
    so(client.collectNext(root).isEmpty() && server.claim(2).isEmpty(), "nothing");
    Work work = server.claim(1).orElseThrow();
    so(work.element().id() == root && work.attempt() == 1 && work.unit() == 8, work);
    so(Arrays.equals(work.element().body(), new long[] {2, 3, 0, 0}) && work.element().by() == 65536, work);
    refused(Refused.BUSY, () -> server.claimNext(1));
    refused(Refused.TOO_MANY, () -> server.commit(new Draft[5]));
    refused(Refused.BAD_DRAFT, () -> server.commit(new Draft(16)));
    int born = server.commit(new Draft(Draft.REPLIES, 5, 6, 7, 8), new Draft(3));
    refused(Refused.NO_OPEN, server::commit);
    covetrivet.Element reply = client.collectNext(root).orElseThrow();
    so(reply.id() == born && reply.root() == root && reply.stage() == 15 && reply.body()[3] == 8, reply);
    so(client.cancel(root) == 1, "cancel");
    refused(Refused.NOT_ALL, () -> manager.account(0));
    server.close();
    client.close();
    so(manager.account(0).equals(new Counts(0, 0, 1, 0, 2)), manager.account(0));
    so(manager.account(3).killed() == 1, manager.account(3));
    refused(Refused.CLOSED_HANDLE, client::number);
    manager.close();
    refused(Refused.CLOSED_HANDLE, manager::open);
    refused(Refused.BAD_LIMITS, () -> new Manager(65537, 1, 1, 0, 1));
  }

  static void whatFailsGoesOn() {
    Manager manager = new Manager(2, 8, 8, 1, 2);
    Caller me = manager.open();
    int id = me.submit(1);
    for (int k = 0; k < 2; k++) {
      me.claimId(id);
      me.abort();
    }
    so(me.nextError(0).getAsInt() == id && me.nextError(id + 1).isEmpty(), "parked");
    refused(Refused.NOT_WAITING, () -> me.claimId(id));
    so(me.requeue(id) == 1, "round");
    me.claimId(id);
    me.close();
    List<Moved> moved = manager.rollOver(3, 8, 8, 1, 2);
    so(moved.size() == 1 && moved.get(0).oldId() == id && moved.get(0).holder() == 0, moved);
    Caller again = manager.open(0), other = manager.open();
    other.release(moved.get(0).newId());
    refused(Refused.LOST, again::commit);
    so(other.kill(moved.get(0).newId()) == 0, "kill");
  }

  static void lostCallersComeHome() throws InterruptedException {
    Manager manager = new Manager(2, 8, 8, 1, 2);
    manager.open().submit(1);
    for (int turn = 0; ; turn++) {
      System.gc();
      Thread.sleep(5);
      try {
        so(manager.account(0).waiting() == 1, manager.account(0));
        return;
      } catch (Refused it) {
        so(it.code == Refused.NOT_ALL && turn < 1000, it);
      }
    }
  }

  public static void main(String[] given) throws InterruptedException {
    oneElement();
    whatFailsGoesOn();
    lostCallersComeHome();
    System.out.println("calls: each does what it should");
  }
}
