"""The cases of tools/speed: what each runs, its source made by size, and the figures that are given for it.
docs/SPEED.md says in a table what each strains.

A size is a number of tasks, frames, appointments or rounds. `sizes` has two, the second twice the first; `size` is that for
which plain Rust was measured. It is the second where there is no room for twice as much: a load has at most 200 tasks, and a
task at most 1,000 open constructs.
"""
import collections

Case = collections.namedtuple("Case", "name how source size sizes plain wanted")
Case.__doc__ = """A case: `how` is "run", "load" or "accept"; `source` makes its source from a size; `plain` is what plain Rust
takes at `size`, and `wanted` what annexd may take there, in instructions a tick, and of "accept" in instructions of the whole."""


def each(count, text):
    """The text for each number from 1 on, where @ stands for the number."""
    return "".join(text.replace("@", str(number)) for number in range(1, count + 1))


def level(number, levels):
    """A priority that goes round from 1 to so many levels."""
    return 1 + (number - 1) % levels


def declared(count, levels):
    """Declarations of so many tasks T1, T2 and on, whose priorities go round."""
    return "".join(f"   task T{number} with Priority => {level(number, levels)};\n" for number in range(1, count + 1))


def loop(rounds):
    return f"""procedure Count is
   Total : Integer := 0;
begin
   for Round in 1 .. {rounds} loop
      Total := Total + 1;
   end loop;
end Count;
"""


CALLS = 36_000


def recursion(frames):
    return f"""procedure Deep is
   procedure Descend (Left : in Integer) is
   begin
      if Left > 1 then
         Descend (Left - 1);
      end if;
   end Descend;
begin
   for Round in 1 .. {CALLS // frames} loop
      Descend ({frames});
   end loop;
end Deep;
"""


def load(tasks):
    """What `annexd load` makes: byte for byte, so that its accept can be taken off."""
    bodies = "".join(f"""   task body T{number} is
      Next : Time := Clock;
   begin
      for K in 1 .. 10 loop
         Next := Next + Microseconds ({1000 + 10 * number});
         delay until Next;
      end loop;
   end T{number};
""" for number in range(1, tasks + 1))
    return f"with Ada.Real_Time; use Ada.Real_Time;\nprocedure Load is\n{declared(tasks, 14)}{bodies}begin\n   null;\nend Load;\n"


def periodic(tasks):
    """Periods grow with the number of tasks, so that with twice the tasks there are as many ticks to a line."""
    bodies = "".join(f"""   task body T{number} is
      Release : Time := Clock;
   begin
      for Job in 1 .. 20 loop
         delay until Release;
         Release := Release + Microseconds ({18 * tasks + 9 * number});
      end loop;
   end T{number};
""" for number in range(1, tasks + 1))
    return f"with Ada.Real_Time; use Ada.Real_Time;\nprocedure Cycles is\n{declared(tasks, 10)}{bodies}begin\n   null;\nend Cycles;\n"


def shared(tasks):
    """Who holds the object's turn waits a little, so that all others queue at its entry."""
    body = """   task body T@ is
   begin
      for Turn in 1 .. 20 loop
         Gate.Enter;
         delay 0.000010;
         Gate.Leave;
      end loop;
   end T@;
"""
    return f"""procedure Turns is
   protected Gate with Priority => 20 is
      entry Enter;
      procedure Leave;
   private
      Free : Boolean := True;
   end Gate;
   protected body Gate is
      entry Enter when Free is
      begin
         Free := False;
      end Enter;
      procedure Leave is
      begin
         Free := True;
      end Leave;
   end Gate;
{declared(tasks, 10)}{each(tasks, body)}begin
   null;
end Turns;
"""


def events(count):
    """Five times all events are set, each to a moment of its own, and all occur."""
    names = [f"E{number}" for number in range(1, count + 1)]
    declarations = "".join(f"   {', '.join(names[at:at + 10])} : Timing_Event;\n" for at in range(0, count, 10))
    # all different, since the prime 3571 divides no size of this case
    moments = [20 * count + 3_571 * number % (10 * count) for number in range(count)]
    settings = "".join(f"      Set_Handler (Day.{name}, Microseconds ({moment}), Day.Bell.Ring'Access);\n" for name, moment in zip(names, moments))
    used = "with Ada.Real_Time; use Ada.Real_Time;\nwith Ada.Real_Time.Timing_Events; use Ada.Real_Time.Timing_Events;\n"
    return f"""{used}package Day is
{declarations}   protected Bell with Interrupt_Priority => 31 is
      procedure Ring (Event : in out Timing_Event);
   private
      Rung : Integer := 0;
   end Bell;
end Day;
package body Day is
   protected body Bell is
      procedure Ring (Event : in out Timing_Event) is
      begin
         Rung := Rung + 1;
      end Ring;
   end Bell;
end Day;
with Day;
{used}procedure Alarms is
begin
   for Round in 1 .. 5 loop
{settings}      delay 0.{50 * count:06};
   end loop;
end Alarms;
"""


def server(clients):
    body = """   task body T@ is
      Read : Integer := 0;
   begin
      for Round in 1 .. 50 loop
         Store.Add (Round);
         Store.Sum (Read);
      end loop;
   end T@;
"""
    return f"""procedure Rooms is
   task Store with Priority => 12 is
      entry Add (More : in Integer);
      entry Sum (Now : out Integer);
   end Store;
{declared(clients, 10)}   task body Store is
      Total : Integer := 0;
   begin
      loop
         select
            accept Add (More : in Integer) do
               Total := Total + More;
            end Add;
         or
            accept Sum (Now : out Integer) do
               Now := Total;
            end Sum;
         or
            terminate;
         end select;
      end loop;
   end Store;
{each(clients, body)}begin
   null;
end Rooms;
"""


def asynchronous(rounds):
    """In each round a delay ends one abortable part, an entry call another, and a task is aborted."""
    return f"""with Ada.Real_Time; use Ada.Real_Time;
procedure Breaks is
   Work : Integer := 0;
   protected Signal with Priority => 20 is
      procedure Send;
      entry Receive;
   private
      Sent : Boolean := False;
   end Signal;
   protected body Signal is
      procedure Send is
      begin
         Sent := True;
      end Send;
      entry Receive when Sent is
      begin
         Sent := False;
      end Receive;
   end Signal;
begin
   for Round in 1 .. {rounds} loop
      select
         delay 0.000050;
         Work := 0;
      then abort
         loop
            Work := Work + 1;
         end loop;
      end select;
      select
         Signal.Receive;
      then abort
         for Step in 1 .. 5 loop
            Work := Work + 1;
         end loop;
         Signal.Send;
         Work := 0;
      end select;
      declare
         task Sleeper with Priority => 10;
         task body Sleeper is
         begin
            loop
               delay 1.0;
            end loop;
         end Sleeper;
      begin
         delay 0.000030;
         abort Sleeper;
      end;
   end loop;
end Breaks;
"""


def yielding(tasks):
    body = """   task body T@ is
   begin
      for Turn in 1 .. 50 loop
         delay 0.0;
      end loop;
   end T@;
"""
    return f"procedure Rounds is\n{each(tasks, '   task T@;' + chr(10))}{each(tasks, body)}begin\n   null;\nend Rounds;\n"


def put(lines):
    return f"""with Ada.Text_IO; use Ada.Text_IO;
procedure Lines is
begin
   for Number in 1 .. {lines} loop
      Put_Line ("line" & Integer'Image (Number));
   end loop;
end Lines;
"""


def of(name, how, source, sizes, plain, wanted, is_second=False):
    """A case whose table has the first of its sizes, or the second."""
    return Case(name, how, source, sizes[1 if is_second else 0], sizes, plain, wanted)


CASES = (
    of("loop", "run", loop, (100_000, 200_000), 286, 570),
    of("recursion", "run", recursion, (450, 900), 327, 650, is_second=True),
    of("load", "load", load, (100, 200), 312, 624, is_second=True),
    of("periodic", "run", periodic, (50, 100), 157, 314),
    of("shared", "run", shared, (100, 200), 996, 1_992),
    of("events", "run", events, (1_000, 2_000), 135, 270),
    of("server", "run", server, (50, 100), 1_047, 2_094),
    of("asynchronous", "run", asynchronous, (1_000, 2_000), 420, 840),
    of("yield", "run", yielding, (100, 200), 631, 1_262),
    of("put", "run", put, (50_000, 100_000), 248, 496),
    of("accept", "accept", events, (1_000, 2_000), 61_000_000, 122_000_000),
)
