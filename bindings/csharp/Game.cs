// The short game of all bindings (../README.md says what happens in it), from C#: Game.exe < ../../examples/embed/drop.txt
using System;
using System.Linq;
using System.Text;
using Lakmozet;

/// <summary>What a player does in a turn: moves its hand, and now and then cuts a stroke, the threads below neighbours in a row.</summary>
struct Input
{
    public Place To;
    public bool Cuts;
    public uint First;
}

/// <summary>The numbers that all bindings draw.</summary>
sealed class Numbers
{
    private uint state = 12345;

    public long Draw(uint below)
    {
        state ^= state << 13;
        state ^= state >> 17;
        state ^= state << 5;
        return state % below;
    }
}

/// <summary>One player's machine: its world, and what it knows of each player's turns.</summary>
sealed class Machine : IDisposable
{
    private readonly Cloth cloth;
    private readonly Input[,] inputs;
    private readonly int[] known = new int[Game.Hands.Length];
    private int played;

    public Machine(Cloth from, Input[,] all)
    {
        cloth = from;
        inputs = all;
    }

    public void Begin()
    {
        foreach (var hand in Game.Hands)
            Game.Must(cloth.Pin(hand), "Pin");
        Game.Must(cloth.Gravity(Game.Gravity), "Gravity");
    }

    /// <summary>The state of the world before a turn, for a machine that joins.</summary>
    public byte[] StateBefore(int turn)
    {
        Game.Must(cloth.StateSize(out var size), "StateSize");
        var state = new byte[size];
        Game.Must(cloth.DigestSlot((uint)turn % Game.Dropped, out var kept), "DigestSlot");
        Game.Must(cloth.ChecksumSlot((uint)turn % Game.Dropped, out var keptSum), "ChecksumSlot");
        Game.Must(cloth.Save(Game.Now), "Save");
        Game.Must(cloth.Restore((uint)turn % Game.Dropped), "Restore");
        Game.Must(cloth.Digest(out var digest), "Digest");
        Game.Must(cloth.Checksum(out var sum), "Checksum");
        Game.Must(kept.Equals(digest) && keptSum == sum, "what a slot has is what is restored");
        Game.Must(cloth.StateWrite(state, out _), "StateWrite");
        Game.Must(cloth.Restore(Game.Now), "Restore");
        return state;
    }

    /// <summary>Reads a state: bytes that are none are refused, and change nothing.</summary>
    public void Join(byte[] state, int turn)
    {
        Game.Must(cloth.Digest(out var before), "Digest");
        Game.Must(cloth.StateRead(state.AsSpan(0, state.Length - 1), out var offset) == Answer.NoState, "a state is whole");
        Game.Must(offset == (ulong)state.Length - 1, "a state ends where its bytes end");
        state[8] ^= 1;
        Game.Must(cloth.StateRead(state, out offset) == Answer.NoState && offset == 8, "a state of another scene is refused");
        Game.Must(cloth.Digest(out var after), "Digest");
        Game.Must(after.Equals(before), "what is refused changes nothing");
        state[8] ^= 1;
        Game.Must(cloth.StateRead(state, out _), "StateRead");
        known[0] = known[1] = played = turn;
    }

    public Cloth World
    {
        get { return cloth; }
    }

    /// <summary>Learns a player's next turn: where that was played without it, goes back, and plays on from there.</summary>
    public void Learn(int player)
    {
        var turn = known[player]++;
        if (turn >= played)
            return;
        Game.Must(cloth.Restore((uint)turn % Game.Dropped), "Restore");
        for (var again = turn; again < played; again++)
            Play(again);
    }

    public void PlayNext()
    {
        Play(played++);
    }

    public int Turns
    {
        get { return played; }
    }

    /// <summary>Saves the world before a turn, and plays what is known of it: the first player's input first.</summary>
    private void Play(int turn)
    {
        Game.Must(cloth.Save((uint)turn % Game.Dropped), "Save");
        for (var player = 0; player < known.Length; player++)
        {
            if (turn >= known[player])
                continue;
            var input = inputs[turn, player];
            Game.Must(cloth.Move(Game.Hands[player], input.To), "Move");
            if (input.Cuts)
                CutStroke(input.First);
        }
        Game.Must(cloth.Step(3), "Step");
    }

    /// <summary>Cuts the threads from a row to the next. One that is gone is refused, on all machines alike.</summary>
    private void CutStroke(uint first)
    {
        var threads = new uint[Game.Wide];
        for (uint k = 0; k < Game.Wide; k++)
        {
            var thread = cloth.LinkBetween(first + k, first + k + Game.Row);
            Game.Must(thread.HasValue, "a thread joins a particle and the one below it");
            threads[k] = thread.Value;
        }
        Game.Must(cloth.CutMany(threads, out _), "CutMany");
    }

    public void LetGo()
    {
        foreach (var hand in Game.Hands)
            Game.Must(cloth.Unpin(hand), "Unpin");
        Game.Must(cloth.Step(), "Step");
    }

    public void Dispose()
    {
        cloth.Dispose();
    }
}

static class Game
{
    /// <summary>A slot for each of the last eight turns, one for the world after the drop, and one to go on from.</summary>
    public const uint Slots = 10, Dropped = 8, Now = 9;

    /// <summary>How many particles a row of the cloth has, and how many threads a stroke cuts.</summary>
    public const uint Row = 20, Wide = 3;

    public static readonly ulong[] Hands = { 0, 19 };
    public static readonly Place Gravity = new Place(0, -120, 0);
    private const int Turns = 40, Late = 5, Joins = 20;

    /// <summary>Ends the game where something isn't as it must be.</summary>
    public static void Must(bool isSo, string what)
    {
        if (!isSo)
            throw new InvalidOperationException("not so: " + what);
    }

    public static void Must(Answer answer, string what)
    {
        Must(answer == Answer.Done, what);
    }

    private static Input[,] DrawnInputs()
    {
        var numbers = new Numbers();
        var inputs = new Input[Turns, Hands.Length];
        for (var turn = 0; turn < Turns; turn++)
        {
            for (var player = 0; player < Hands.Length; player++)
            {
                var x = 124526 * player - 72263 + numbers.Draw(20001);
                var y = 1000 * turn + 56000 + numbers.Draw(8001);
                var cuts = numbers.Draw(8) == 0;
                inputs[turn, player] = new Input { To = new Place(x, y, -62263), Cuts = cuts, First = (uint)numbers.Draw(378) };
            }
        }
        return inputs;
    }

    private static Place[] PlacesOf(Cloth cloth)
    {
        Must(cloth.Counts(out var counts), "Counts");
        var places = new Place[counts.Particles];
        Must(cloth.Places(places, out _), "Places");
        return places;
    }

    /// <summary>A frame as the program prints it.</summary>
    private static string Frame(Cloth cloth)
    {
        Must(cloth.Counts(out var counts), "Counts");
        var text = new StringBuilder($"frame {counts.Steps} {counts.Particles} {counts.Live} {counts.Contacts}\n");
        foreach (var place in PlacesOf(cloth))
            text.Append($"{place.X} {place.Y} {place.Z}\n");
        return text.ToString();
    }

    private static Cloth Opened(byte[] scene)
    {
        var cloth = new Cloth();
        Must(cloth.Open(scene, Slots, out _) == Outcome.Done, "Open");
        return cloth;
    }

    /// <summary>Lets the cloth fall on the ball, and says what the program prints of that.</summary>
    private static Cloth Drop(byte[] scene, out string printed)
    {
        var cloth = Opened(scene);
        var text = new StringBuilder();
        for (var half = 0; half < 3; half++)
        {
            Must(cloth.Step(30), "Step");
            text.Append("ok\n").Append(Frame(cloth));
        }
        Must(cloth.Save(Dropped), "Save");
        printed = text.ToString();
        return cloth;
    }

    /// <summary>Sees that a scene which breaks a rule is refused, and where.</summary>
    private static void Refuse()
    {
        using (var cloth = new Cloth())
        {
            Must(cloth.Open(Encoding.UTF8.GetBytes("passes = 4\n= 5\n"), 0, out var fault) == Outcome.SceneNotToml, "no TOML");
            Must(fault.Offset == 11 && fault.Rule == 0, "where the text is no TOML");
            var outcome = cloth.Open(Encoding.UTF8.GetBytes("[[particle]]\nat = 5\n"), 0, out fault);
            Must(outcome == Outcome.SceneRefused, "a place is three numbers");
            Must(fault.Offset == 0 && fault.Rule == Rule.WrongType && fault.Table == Table.Particle && fault.Position == 0 && fault.Key == Key.At,
                "the fault of the scene");
        }
    }

    /// <summary>Sees that a mesh in memory is cloth, with its links and its triangles, and that one with a bad face is refused.</summary>
    private static void LookAtMeshes()
    {
        var square = new Mesh
        {
            Vertices = new[]
            {
                new Place(0, 0, 0), new Place(6554, 0, 0), new Place(6554, 6554, 0), new Place(0, 6554, 0), new Place(3277, 9831, 0)
            },
            Sizes = new uint[] { 4, 3 },
            Corners = new uint[] { 0, 1, 2, 3, 3, 2, 4 }
        };
        var settings = new MeshSettings { Weight = 1, Stretch = 256, Shear = 256, Bend = 40, Bends = 1 };
        using (var cloth = new Cloth())
        {
            var opened = cloth.OpenMesh(Encoding.UTF8.GetBytes("thickness = 7000\n"), square, settings, 0, out _, out _);
            Must(opened == Outcome.Done, "OpenMesh");
            Must(PlacesOf(cloth).SequenceEqual(square.Vertices), "the vertices are particles");
            var links = new Link[10];
            Must(cloth.Links(links, out _), "Links");
            Must(links.Select(it => it.Kind).SequenceEqual(new byte[] { 0, 0, 0, 0, 0, 0, 1, 1, 2, 2 }), "the links of a mesh");
            Must(links[9].Stiffness == 40, "how stiff a bend link is");
            Must(cloth.Step(), "Step");
            Must(cloth.Counts(out var counts), "Counts");
            Must(cloth.Contacts(out var contacts), "Contacts");
            Must(contacts == counts.Contacts, "the contacts are counted");
        }
        var triangles = new Triangle[4];
        Must(Triangle.OfMesh(square, triangles, out var found, out _) == Outcome.Done && found == 3, "the triangles of a mesh");
        Must(triangles[2].A == 3 && triangles[2].B == 2 && triangles[2].C == 4, "a triangle of a mesh");
        Must(Triangle.OfMesh(square, triangles.AsSpan(0, 2), out found, out _) == Outcome.NoRoom && found == 3, "room for two");
        Must(Triangle.OfCloth(4, 2, 3, triangles) == 4, "the triangles of a cloth");
        Must(triangles[3].A == 6 && triangles[3].B == 8 && triangles[3].C == 9, "a triangle of a cloth");
        square.Corners[6] = 2;
        using (var cloth = new Cloth())
        {
            var outcome = cloth.OpenMesh(new byte[0], square, settings, 0, out _, out var fault);
            Must(outcome == Outcome.MeshRefused && fault.Rule == MeshRule.BadFace && fault.Number == 1, "a face that has a vertex twice");
            outcome = Triangle.OfMesh(square, triangles, out _, out fault);
            Must(outcome == Outcome.MeshRefused && fault.Rule == MeshRule.BadFace && fault.Number == 1, "no triangles of such a face");
        }
    }

    /// <summary>Records the session, and replays its log: the text is what was printed.</summary>
    private static void Replay(byte[] scene, byte[] script, string printed)
    {
        byte[] log = new byte[1 << 16], output = new byte[printed.Length];
        Must(Session.Record(scene, script, log, out var length) == Outcome.Done, "Record");
        Must(Session.Replay(log.AsSpan(0, length), output, out var written, out _) == Outcome.Done, "Replay");
        Must(Encoding.ASCII.GetString(output, 0, written) == printed, "the replay prints the drop");
    }

    /// <summary>A turn of a machine that joined: it learns what both players did Late turns ago.</summary>
    private static void PlayJoined(Machine machine, int now)
    {
        for (var player = 0; player < Hands.Length; player++)
            machine.Learn(player);
        if (now < Turns)
            machine.PlayNext();
    }

    /// <summary>Plays all turns: each machine knows its own player's at once, and the other's some turns later. One joins on the way.</summary>
    private static void PlayLate(Machine[] machines, Machine late)
    {
        for (var now = 0; now < Turns + Late; now++)
        {
            for (var player = 0; player < machines.Length; player++)
            {
                if (now >= Late)
                    machines[player].Learn(1 - player);
                if (now >= Turns)
                    continue;
                machines[player].Learn(player);
                machines[player].PlayNext();
            }
            if (now > Joins)
                PlayJoined(late, now);
            if (now != Joins)
                continue;
            late.Join(machines[0].StateBefore(now - Late + 1), now - Late + 1);
            while (late.Turns <= now)
                late.PlayNext();
        }
    }

    private static void PlayOnTime(Machine machine)
    {
        for (var now = 0; now < Turns; now++)
        {
            for (var player = 0; player < Hands.Length; player++)
                machine.Learn(player);
            machine.PlayNext();
        }
    }

    private static bool HasSum(Place[] places, Place sum)
    {
        var total = new Place();
        foreach (var place in places)
            total = new Place(total.X + place.X, total.Y + place.Y, total.Z + place.Z);
        return total.Equals(sum);
    }

    /// <summary>Sees that the links agree with the count of live ones, that nothing is held, and that gravity is what it was set to.</summary>
    private static void LookAtParts(Cloth cloth, Counts counts)
    {
        var links = new Link[counts.Links];
        Must(cloth.Links(links, out _), "Links");
        Must(links.Count(it => it.Live == 1) == counts.Live, "the live links are counted");
        var last = links[links.Length - 1];
        Must(cloth.LinkBetween(last.B, last.A) == counts.Links - 1, "a link is found by its ends");
        Must(cloth.LinkBetween(0, 0) == null, "no link joins a particle with itself");
        var held = new byte[counts.Particles];
        Must(cloth.Held(held, out _), "Held");
        Must(held.All(it => it == 0), "the corners are let go");
        Must(cloth.GravityNow(out var gravity), "GravityNow");
        Must(gravity.Equals(Gravity), "gravity is what it was set to");
    }

    /// <summary>What a sum of 128 bits has in its low halves, which tell it where it is far from 2^63.</summary>
    private static Place LowOf(WidePlace sum)
    {
        return new Place((long)sum.X.Low, (long)sum.Y.Low, (long)sum.Z.Low);
    }

    /// <summary>Sees that the momentum is that at opening and the six totals together.</summary>
    private static void LookAtLedger(Cloth cloth)
    {
        Must(cloth.Ledger(out var it), "Ledger");
        var causes = new[] { it.Opening, it.Gravity, it.Damping, it.Link, it.Contact, it.Pin, it.Shape };
        Must(HasSum(causes.Select(cause => LowOf(cause)).ToArray(), LowOf(it.Momentum)), "the ledger balances");
    }

    /// <summary>The sums and the digest as two lines, after the lists were seen to agree with the sums.</summary>
    private static string Totals(Cloth cloth)
    {
        Must(cloth.Counts(out var counts), "Counts");
        Must(cloth.Sums(out var sums), "Sums");
        var live = new byte[counts.Links];
        Must(cloth.Live(live, out _), "Live");
        Must(live.Count(it => it == 1) == sums.Live, "the live links are counted");
        Must(cloth.GoneSince(Dropped, new uint[counts.Links], out var gone), "GoneSince");
        Must(gone == counts.Links - sums.Live, "those that went are the others");
        var before = new Place[counts.Particles];
        Must(cloth.PlacesBefore(before, out _), "PlacesBefore");
        Must(HasSum(PlacesOf(cloth), sums.At) && HasSum(before, sums.Before), "the places have their sums");
        LookAtParts(cloth, counts);
        LookAtLedger(cloth);
        Must(cloth.Digest(out var digest), "Digest");
        return $"{sums}\ndigest {digest}";
    }

    private static void Main()
    {
        Must(LibraryVersion.OfLibrary().Equals(LibraryVersion.OfHeader), "the library has the version of the header");
        var text = Console.In.ReadToEnd();
        var cut = text.IndexOf("%%\n", StringComparison.Ordinal);
        byte[] scene = Encoding.UTF8.GetBytes(text.Substring(0, cut)), script = Encoding.UTF8.GetBytes(text.Substring(cut + 3));
        var inputs = DrawnInputs();
        // the drop
        using (var dropped = Drop(scene, out var printed))
        // rollback: two players, a machine that joins them, and one that knows all in time
        using (var first = new Machine(dropped, inputs))
        using (var second = new Machine(Drop(scene, out _), inputs))
        using (var late = new Machine(Opened(scene), inputs))
        using (var onTime = new Machine(Drop(scene, out _), inputs))
        {
            Console.Write(printed);
            Replay(scene, script, printed);
            Refuse();
            LookAtMeshes();
            foreach (var machine in new[] { first, second, onTime })
                machine.Begin();
            PlayLate(new[] { first, second }, late);
            PlayOnTime(onTime);
            foreach (var machine in new[] { first, second, late, onTime })
                machine.LetGo();
            var lines = Totals(onTime.World);
            foreach (var machine in new[] { first, second, late })
                Must(Totals(machine.World) == lines, "the sums and the digests are equal");
            Console.WriteLine(lines);
        }
    }
}
