"""Processes that are forked while another thread asks the library: the child uses what no other thread was using. It doesn't wait for a
thread that it lacks: what one was using is an error, or a geometry that is read again."""
import os
import subprocess
import sys
import textwrap
import unittest

from support import ROOT

import engine_rows
import library

# How long a child may take, in seconds: one that waits for a thread that it lacks never ends.
DUE = 60
HEAD = """
    import os, sys, threading, time
    import sfq, tables_stand_in
    from sfq.geometry import forks
    from sfq.tables import databases

    def in_child(work):
        # Returns the status of a child that does the work, or the signal that ends one that waits.
        sys.stdout.flush()
        number = os.fork()
        if not number:
            threading.Thread(target=lambda: (time.sleep(20), os.kill(os.getpid(), 9)), daemon=True).start()
            try:
                work()
            except BaseException as error:
                print(type(error).__name__, error)
            sys.stdout.flush()
            os._exit(0)
        status = os.waitpid(number, 0)[1]
        if status:
            print("the child ended with", status)

    def busy(work):
        # Begins work in another thread, and waits until it is in it.
        begun = threading.Event()
        threading.Thread(target=work, args=[begun], daemon=True).start()
        begun.wait()
"""
LOST = "OperationalError sfq: another thread was asking this connection when the process was forked: connect again"


def ran(text):
    """Returns the lines that a program prints."""
    known = {**os.environ, "PYTHONPATH": f"{ROOT}/bindings/python:{ROOT}/tests", "PYTHONDONTWRITEBYTECODE": "1", "SFQ_LIBRARY": library.SHARED}
    found = subprocess.run([sys.executable, "-c", textwrap.dedent(HEAD) + textwrap.dedent(text)], env=known, capture_output=True, text=True, timeout=DUE)
    return (found.stdout + found.stderr).splitlines()


class Locks(unittest.TestCase):
    """What one thread at a time holds, without a library."""

    HELD = """
        class Held(forks.Held):
            def renew(self):
                raise ValueError("lost")
        def hold(begun):
            lost.alone(lambda: (begun.set(), time.sleep(DUE)))
        DUE, lost, idle, own = 60, Held(), Held(), Held()
        busy(hold)
        def use(it):
            return it.alone(lambda: "held")
    """

    def test_what_no_other_thread_held_goes_on(self):
        self.assertEqual(ran(self.HELD + """
        def child():
            print(use(idle), use(idle), idle.is_lost, lost.is_lost)
            for _ in range(2):
                try:
                    use(lost)
                except ValueError as error:
                    print(error)
        in_child(child)
        in_child(lambda: in_child(child))
        print(use(idle), lost.is_lost)
        """), 2 * ["held held False True", "lost", "lost"] + ["held False"])

    def test_what_the_thread_held_that_forked_goes_on(self):
        self.assertEqual(ran(self.HELD + """
        def child():
            found = []
            thread = threading.Thread(target=lambda: found.append(use(own)))
            thread.start()
            time.sleep(0.2)
            print(own.is_lost, found)
            own.lock.release()
            thread.join()
            print(found)
        own.alone(lambda: in_child(child))
        """), ["False []", "['held']"])

    def test_many_threads_of_a_child(self):
        self.assertEqual(ran(self.HELD + """
        def child():
            count = [0]
            def add_one():
                before = count[0]
                time.sleep(0)
                count[0] = before + 1
            def add():
                for _ in range(500):
                    idle.alone(add_one)
            threads = [threading.Thread(target=add) for _ in range(8)]
            for it in threads:
                it.start()
            for it in threads:
                it.join()
            print(count)
        in_child(child)
        """), ["[4000]"])

    def test_ctrl_c_at_any_time_gives_a_lock_back(self):
        """What takes a lock only to be interrupted before it has noted that would keep it for ever."""
        self.assertEqual(ran(self.HELD + """
        import signal
        def interrupted(ask):
            try:
                signal.setitimer(signal.ITIMER_REAL, 0.001)
                while True:
                    ask()
            except KeyboardInterrupt:
                return forks.owner(own._lock), forks.owner(idle._lock)
        signal.signal(signal.SIGALRM, signal.default_int_handler)
        print({interrupted(lambda: own.alone(lambda: None)) for _ in range(400)})
        print({interrupted(lambda: forks.alone((own, idle, own), lambda: None)) for _ in range(400)})
        """), ["{(0, 0)}", "{(0, 0)}"])

    def test_several_are_held_and_given_back(self):
        self.assertEqual(ran(self.HELD + """
        here = threading.get_ident()
        def fail():
            raise OSError([forks.owner(it._lock) == here for it in (own, idle)])
        print(forks.alone((own, idle), lambda: [forks.owner(it._lock) == here for it in (own, idle, lost)]))
        try:
            forks.alone((idle, own), fail)
        except OSError as error:
            print(error)
        print([forks.owner(it._lock) for it in (own, idle)], forks.owner(lost._lock) not in (0, here))
        """), ["[True, True, False]", "[True, True]", "[0, 0] True"])

    def test_a_connection_over_a_stand_in(self):
        self.assertEqual(ran("""
            calls = tables_stand_in.Calls()
            databases.library = lambda: calls
            one, other = (sfq.connect("CREATE TABLE t (id INTEGER)", {"t": {"id": [1, 2]}}, load_all=True) for _ in range(2))
            def ask(begun):
                calls.before_step = lambda: (begun.set(), time.sleep(60)) if threading.current_thread() is not main else None
                one.execute("SELECT id FROM t").fetchall()
            main = threading.current_thread()
            busy(ask)
            def child():
                print(other.execute("SELECT id FROM t").fetchall())
                one.close()
                one.execute("SELECT id FROM t")
            in_child(child)
        """), ["[(1,), (2,)]", LOST])


class OverLibrary(engine_rows.WithLibrary):
    """Over the library that ./build --library made: 20 forks, each while a thread is in a call."""

    SHAPES = """
        def star(count, turn):
            return "LINESTRING(" + ",".join(f"{(at * turn) % 9_973} {(at * at * turn) % 9_949}" for at in range(1, count)) + ")"
        one, other, idle = sfq.Geometry(star(1_500, 7)), sfq.Geometry(star(1_500, 11)), sfq.Geometry("POINT(1 1)")
        wanted = one.relate(other)
        stops = [False]
        def ask(begun):
            while not stops[0]:
                begun.set()
                one.relate(other)
    """

    def test_geometries(self):
        """One that a thread was asking is read again."""
        self.assertEqual(ran(self.SHAPES + """
        busy(ask)
        def child():
            print(idle.relate("POINT(1 1)"), one.relate(other) == wanted, other.relate(one) == one.relate(other)[0::3] + one.relate(other)[1::3] + one.relate(other)[2::3])
        for _ in range(20):
            time.sleep(0.01)
            in_child(child)
        stops[0] = True
        """), 20 * ["0FFFFFFF2 True True"])

    def test_geometries_from_positions(self):
        self.assertEqual(ran(self.SHAPES + """
        one = sfq.Geometry.from_positions("LineString", [tuple(map(int, it.split())) for it in star(1_500, 7)[11:-1].split(",")])
        busy(ask)
        def child():
            print(one.relate(other) == wanted)
        for _ in range(5):
            time.sleep(0.01)
            in_child(child)
        stops[0] = True
        """), 5 * ["True"])

    def test_connections(self):
        """One that a thread was asking raises an error, or has its rows where the thread was between two calls."""
        found = ran("""
            columns = {"id": range(3_000), "geom": [f"POINT({at} {at * at % 977})" for at in range(3_000)]}
            schema = "CREATE TABLE t (id INTEGER PRIMARY KEY, geom POINT)"
            one, other = (sfq.connect(schema, {"t": columns}, load_all=True) for _ in range(2))
            query = "SELECT COUNT(*) FROM t a, t b WHERE a.id < b.id AND ST_Relate(a.geom, b.geom, 'FFFFFFFFF')"
            stops = [False]
            def ask(begun):
                while not stops[0]:
                    begun.set()
                    one.execute(query).fetchall()
            busy(ask)
            def child():
                print(other.execute("SELECT COUNT(*) FROM t").fetchall())
                print(one.execute("SELECT COUNT(*) FROM t").fetchall())
            for _ in range(20):
                time.sleep(0.01)
                in_child(child)
            stops[0] = True
        """)
        self.assertEqual((len(found), set(found[::2]), set(found[1::2]) - {LOST, "[(3000,)]"}), (40, {"[(3000,)]"}, set()))
        self.assertIn(LOST, found)


if __name__ == "__main__":
    unittest.main()
