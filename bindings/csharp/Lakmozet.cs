// Lakmozet for C#: one file over the C library, with spans for memory and an answer from each call.
//
// Each method stands for a call of lakmozet.h, which says what it does, its units and its answers; those of a Cloth stand in that
// header's parts, in their order, and what is added there gets its line in Native and its line below. Compile with /unsafe. The
// library is found as a shared one by the name Native.Library: liblakmozet.so, liblakmozet.dylib or lakmozet.dll.
//
// A Cloth also keeps the name of its scene, for which opening asks, and hands it to the calls on states and digests. It is used by
// one call at a time, on any thread. Dispose it; where that is forgotten, its finalizer gives the memory back.
using System;
using System.Runtime.InteropServices;

namespace Lakmozet
{
    /// <summary>What a call on a cloth answers.</summary>
    public enum Answer
    {
        Done = 0,
        NoParticle = 2,
        NoLink = 3,
        LinkGone = 4,
        OutOfRange = 5,
        NotHeld = 6,
        Held = 7,
        Tracked = 8,
        BadCount = 9,
        StepLimit = 10,
        LeavesRange = 11,
        TooManyContacts = 12,
        Closed = 64,
        NoSlot = 66,
        NoRoom = 67,
        NoState = 68
    }

    /// <summary>What opening, recording, replaying and cutting a mesh into triangles answer.</summary>
    public enum Outcome
    {
        Done = 0,
        NoLogRoom = 35,
        TooLong = 36,
        SceneNotText = 38,
        SceneNotToml = 39,
        SceneRefused = 40,
        LogRefused = 41,
        Mismatch = 42,
        SomeRefused = 43,
        OutOfMemory = 44,
        MeshRefused = 46,
        InUse = 65,
        NoSlot = 66,
        NoRoom = 67
    }

    /// <summary>The rules that a scene may break.</summary>
    public enum Rule : byte
    {
        UnknownKey = 2, MissingKey, WrongType, OutOfRange, TooMany, BadIndex, SelfLink, DoubleLink, TooManyAtParticle, BadTrack
    }

    /// <summary>The rules that a mesh may break.</summary>
    public enum MeshRule : byte
    {
        OutOfRange = 1, BadFace, BadCount, BadSettings, TooMany, TooManyAtParticle
    }

    /// <summary>The tables of a scene.</summary>
    public enum Table : byte
    {
        Scene, Particle, Cloth, Rope, Link, Plane, Sphere, Track
    }

    /// <summary>The keys of a scene, and none, where the rule isn't of one.</summary>
    public enum Key : byte
    {
        NoKey, Gravity, Passes, Damping, Thickness, Friction, Pins, At, Velocity, Weight, Held, Origin, Across, Down, Rows, Columns,
        Stretch, Shear, Bend, StretchTear, ShearTear, BendTear, Spacing, Count, A, B, Rest, Stiffness, Tear, Normal, Offset, Centre,
        Radius, Particle, Keys
    }

    /// <summary>The fields of a log's entry, and none, where no entry differs.</summary>
    public enum Field : byte
    {
        NoField, Answer, Step, Phase, Element, Steps, Live, Contacts, X, Y, Z, BeforeX, BeforeY, BeforeZ
    }

    /// <summary>A place or a vector, in units of 1/65,536 metre.</summary>
    [StructLayout(LayoutKind.Sequential)]
    public struct Place : IEquatable<Place>
    {
        public long X, Y, Z;

        public Place(long x, long y, long z)
        {
            X = x;
            Y = y;
            Z = z;
        }

        public bool Equals(Place other)
        {
            return X == other.X && Y == other.Y && Z == other.Z;
        }

        public override bool Equals(object other)
        {
            return other is Place && Equals((Place)other);
        }

        public override int GetHashCode()
        {
            return X.GetHashCode() ^ (3 * Y).GetHashCode() ^ (5 * Z).GetHashCode();
        }
    }

    /// <summary>What is wrong with a scene, and where: the offset in a text that is no TOML, or the first rule that is broken.</summary>
    [StructLayout(LayoutKind.Sequential)]
    public struct Fault
    {
        public ulong Offset;
        public uint Position;
        public Rule Rule;
        public Table Table;
        public Key Key;
    }

    /// <summary>A mesh in memory: its vertices, how many corners each face has, and those of all faces, by number from 0.</summary>
    public struct Mesh
    {
        public Place[] Vertices;
        public uint[] Sizes, Corners;
    }

    /// <summary>How a mesh is made cloth: without bend links where Bends is 0.</summary>
    [StructLayout(LayoutKind.Sequential)]
    public struct MeshSettings
    {
        public long StretchTear, ShearTear, BendTear;
        public ushort Weight, Stretch, Shear, Bend;
        public byte Bends;
    }

    /// <summary>The first rule that a mesh or its settings break, and at which vertex or face, from 0.</summary>
    [StructLayout(LayoutKind.Sequential)]
    public struct MeshFault
    {
        public ulong Number;
        public MeshRule Rule;
    }

    /// <summary>Three particles, or vertices of a mesh.</summary>
    [StructLayout(LayoutKind.Sequential)]
    public struct Triangle
    {
        public uint A, B, C;

        /// <summary>Of a cloth of the scene whose first particle has that number: fills the span from its start, and says how many
        /// there are.</summary>
        public static int OfCloth(uint first, uint rows, uint columns, Span<Triangle> into)
        {
            var count = 0;
            for (uint row = 0; row + 1 < rows; row++)
            {
                for (uint column = 0; column + 1 < columns; column++)
                {
                    uint here = first + row * columns + column, below = here + columns;
                    if (count < into.Length)
                        into[count] = new Triangle { A = here, B = below, C = here + 1 };
                    if (count + 1 < into.Length)
                        into[count + 1] = new Triangle { A = here + 1, B = below, C = below + 1 };
                    count += 2;
                }
            }
            return count;
        }

        /// <summary>Of a mesh, by number of a vertex from 0: fills the span from its start, and says how many there are.</summary>
        public static unsafe Outcome OfMesh(Mesh mesh, Span<Triangle> into, out int count, out MeshFault fault)
        {
            fixed (Place* vertices = &Native.Start<Place>(mesh.Vertices))
            fixed (uint* sizes = &Native.Start<uint>(mesh.Sizes), corners = &Native.Start<uint>(mesh.Corners))
            fixed (Triangle* at = &Native.Start<Triangle>(into))
            {
                var outcome = Native.lak_mesh_triangles(vertices, Native.Length<Place>(mesh.Vertices), sizes,
                    Native.Length<uint>(mesh.Sizes), corners, Native.Length<uint>(mesh.Corners), at, Native.Length<Triangle>(into),
                    out var found, out fault);
                count = (int)(uint)found;
                return outcome;
            }
        }
    }

    /// <summary>Where a step was refused.</summary>
    [StructLayout(LayoutKind.Sequential)]
    public struct Left
    {
        public ulong Step;
        public uint Element;
        public byte Phase;
    }

    /// <summary>What two machines compare: equal worlds have equal sums.</summary>
    [StructLayout(LayoutKind.Sequential)]
    public struct Sums : IEquatable<Sums>
    {
        public ulong Steps;
        public uint Live, Contacts;
        public Place At, Before;

        public bool Equals(Sums other)
        {
            return Steps == other.Steps && Live == other.Live && Contacts == other.Contacts
                && At.Equals(other.At) && Before.Equals(other.Before);
        }

        public override bool Equals(object other)
        {
            return other is Sums && Equals((Sums)other);
        }

        public override int GetHashCode()
        {
            return At.GetHashCode() ^ Steps.GetHashCode();
        }

        public override string ToString()
        {
            return $"sums {Steps} {Live} {Contacts} {At.X} {At.Y} {At.Z} {Before.X} {Before.Y} {Before.Z}";
        }
    }

    /// <summary>How many of everything there are.</summary>
    [StructLayout(LayoutKind.Sequential)]
    public struct Counts
    {
        public ulong Steps;
        public uint Particles, Links, Live, Contacts, Slots;
    }

    /// <summary>A link, live or not: its lengths are in units of 1/65,536 metre, and its stiffness in 256ths.</summary>
    [StructLayout(LayoutKind.Sequential)]
    public struct Link
    {
        public long Rest, Tear;
        public uint A, B;
        public ushort Stiffness;
        public byte Kind, Live;
    }

    /// <summary>A number of 128 bits: High * 2^64 + Low.</summary>
    [StructLayout(LayoutKind.Sequential)]
    public struct Wide
    {
        public ulong Low;
        public long High;
    }

    /// <summary>A sum of 128 bits on each axis.</summary>
    [StructLayout(LayoutKind.Sequential)]
    public struct WidePlace
    {
        public Wide X, Y, Z;
    }

    /// <summary>The momentum, that at opening, and the totals of what moved it since, one for each cause.</summary>
    [StructLayout(LayoutKind.Sequential)]
    public struct Ledger
    {
        public WidePlace Momentum, Opening;
        public WidePlace Gravity, Damping, Link, Contact, Pin, Shape;
    }

    /// <summary>A SHA-256 digest: the name of a scene, or what two machines compare.</summary>
    [StructLayout(LayoutKind.Sequential)]
    public unsafe struct Hash : IEquatable<Hash>
    {
        private fixed byte bytes[32];

        public byte[] ToArray()
        {
            fixed (byte* at = bytes)
                return new ReadOnlySpan<byte>(at, 32).ToArray();
        }

        public bool Equals(Hash other)
        {
            return ToArray().AsSpan().SequenceEqual(other.ToArray());
        }

        public override bool Equals(object other)
        {
            return other is Hash && Equals((Hash)other);
        }

        public override int GetHashCode()
        {
            return BitConverter.ToInt32(ToArray(), 0);
        }

        public override string ToString()
        {
            return BitConverter.ToString(ToArray()).Replace("-", "").ToLowerInvariant();
        }
    }

    /// <summary>A version, as Semantic Versioning counts it.</summary>
    [StructLayout(LayoutKind.Sequential)]
    public struct LibraryVersion : IEquatable<LibraryVersion>
    {
        /// <summary>That of the header which this file follows. Lock step demands that all machines have one version.</summary>
        public static readonly LibraryVersion OfHeader = new LibraryVersion { Major = 0, Minor = 1, Patch = 0 };

        public uint Major, Minor, Patch;

        /// <summary>That of the library.</summary>
        public static LibraryVersion OfLibrary()
        {
            Native.lak_version(out var version);
            return version;
        }

        public bool Equals(LibraryVersion other)
        {
            return Major == other.Major && Minor == other.Minor && Patch == other.Patch;
        }

        public override bool Equals(object other)
        {
            return other is LibraryVersion && Equals((LibraryVersion)other);
        }

        public override int GetHashCode()
        {
            return (int)(Major << 20 ^ Minor << 10 ^ Patch);
        }
    }

    /// <summary>Where a replay stopped.</summary>
    [StructLayout(LayoutKind.Sequential)]
    public struct Stop
    {
        public ulong Offset, Entry;
        public Field Field;
    }

    /// <summary>The calls as C has them. None wants a null pointer, also where a length is 0.</summary>
    internal static unsafe class Native
    {
        internal const string Library = "lakmozet";

        /// <summary>lak_cloth: all zeros are a closed handle.</summary>
        [StructLayout(LayoutKind.Sequential)]
        internal struct Handle
        {
            private IntPtr at;
            private byte full;
        }

        [DllImport(Library)] internal static extern void lak_version(out LibraryVersion version);
        [DllImport(Library)] internal static extern Outcome lak_open(ref Handle cloth, byte* toml, UIntPtr length, uint slots,
            out Fault fault);
        [DllImport(Library)] internal static extern Outcome lak_open_mesh(ref Handle cloth, byte* toml, UIntPtr length, Place* vertices,
            UIntPtr vertexCount, uint* sizes, UIntPtr faceCount, uint* corners, UIntPtr cornerCount, MeshSettings settings, uint slots,
            out Fault fault, out MeshFault meshFault);
        [DllImport(Library)] internal static extern void lak_close(ref Handle cloth);
        [DllImport(Library)] internal static extern Answer lak_step(ref Handle cloth, ulong n, out Left left);
        [DllImport(Library)] internal static extern Answer lak_pin(ref Handle cloth, ulong particle);
        [DllImport(Library)] internal static extern Answer lak_unpin(ref Handle cloth, ulong particle);
        [DllImport(Library)] internal static extern Answer lak_move(ref Handle cloth, ulong particle, Place to);
        [DllImport(Library)] internal static extern Answer lak_cut(ref Handle cloth, ulong link);
        [DllImport(Library)] internal static extern Answer lak_cut_many(ref Handle cloth, uint* links, UIntPtr length,
            out UIntPtr refused);
        [DllImport(Library)] internal static extern Answer lak_gravity(ref Handle cloth, Place gravity);
        [DllImport(Library)] internal static extern Answer lak_save(ref Handle cloth, uint slot);
        [DllImport(Library)] internal static extern Answer lak_restore(ref Handle cloth, uint slot);
        [DllImport(Library)] internal static extern Answer lak_counts(ref Handle cloth, out Counts counts);
        [DllImport(Library)] internal static extern Answer lak_sums(ref Handle cloth, out Sums sums);
        [DllImport(Library)] internal static extern Answer lak_contacts(ref Handle cloth, out ulong contacts);
        [DllImport(Library)] internal static extern Answer lak_gravity_now(ref Handle cloth, out Place gravity);
        [DllImport(Library)] internal static extern Answer lak_ledger(ref Handle cloth, out Ledger ledger);
        [DllImport(Library)] internal static extern Answer lak_link_between(ref Handle cloth, uint a, uint b, out uint link);
        [DllImport(Library)] internal static extern Answer lak_places(ref Handle cloth, Place* into, UIntPtr room, out uint count);
        [DllImport(Library)] internal static extern Answer lak_places_before(ref Handle cloth, Place* into, UIntPtr room,
            out uint count);
        [DllImport(Library)] internal static extern Answer lak_held(ref Handle cloth, byte* into, UIntPtr room, out uint count);
        [DllImport(Library)] internal static extern Answer lak_links(ref Handle cloth, Link* into, UIntPtr room, out uint count);
        [DllImport(Library)] internal static extern Answer lak_live(ref Handle cloth, byte* into, UIntPtr room, out uint count);
        [DllImport(Library)] internal static extern Answer lak_gone_since(ref Handle cloth, uint slot, uint* into, UIntPtr room,
            out uint count);
        [DllImport(Library)] internal static extern Answer lak_scene_name(ref Handle cloth, out Hash name);
        [DllImport(Library)] internal static extern Answer lak_state_size(ref Handle cloth, out UIntPtr size);
        [DllImport(Library)] internal static extern Answer lak_state_write(ref Handle cloth, Hash name, byte* into, UIntPtr room,
            out UIntPtr size);
        [DllImport(Library)] internal static extern Answer lak_state_read(ref Handle cloth, Hash name, byte* state, UIntPtr length,
            out ulong offset);
        [DllImport(Library)] internal static extern Answer lak_digest(ref Handle cloth, Hash name, out Hash digest);
        [DllImport(Library)] internal static extern Answer lak_digest_slot(ref Handle cloth, uint slot, Hash name, out Hash digest);
        [DllImport(Library)] internal static extern Answer lak_checksum(ref Handle cloth, out ulong sum);
        [DllImport(Library)] internal static extern Answer lak_checksum_slot(ref Handle cloth, uint slot, out ulong sum);
        [DllImport(Library)] internal static extern Outcome lak_mesh_triangles(Place* vertices, UIntPtr vertexCount, uint* sizes,
            UIntPtr faceCount, uint* corners, UIntPtr cornerCount, Triangle* into, UIntPtr room, out UIntPtr count, out MeshFault fault);
        [DllImport(Library)] internal static extern Outcome lak_record(byte* scene, UIntPtr sceneLength, byte* script, UIntPtr scriptLength,
            byte* output, UIntPtr room, out UIntPtr written);
        [DllImport(Library)] internal static extern Outcome lak_replay(byte* log, UIntPtr length, byte* output, UIntPtr room,
            out UIntPtr written, out Stop stop);

        /// <summary>What a span pins, or something where it is empty: see `fixed` below.</summary>
        internal static ref T Start<T>(ReadOnlySpan<T> span) where T : struct
        {
            return ref MemoryMarshal.GetReference(span.IsEmpty ? new T[1] : span);
        }

        internal static UIntPtr Length<T>(ReadOnlySpan<T> span)
        {
            return (UIntPtr)(uint)span.Length;
        }
    }

    /// <summary>A world and its slots, or nothing.</summary>
    public sealed unsafe class Cloth : IDisposable
    {
        private Native.Handle handle;
        private Hash name;

        // ---- opening and closing

        /// <summary>Opens the scene of a TOML text in UTF-8.</summary>
        public Outcome Open(ReadOnlySpan<byte> toml, uint slots, out Fault fault)
        {
            fixed (byte* at = &Native.Start(toml))
            {
                var outcome = Native.lak_open(ref handle, at, Native.Length(toml), slots, out fault);
                if (outcome == Outcome.Done)
                    Native.lak_scene_name(ref handle, out name);
                return outcome;
            }
        }

        /// <summary>The same with a mesh behind the scene.</summary>
        public Outcome OpenMesh(ReadOnlySpan<byte> toml, Mesh mesh, MeshSettings settings, uint slots, out Fault fault,
            out MeshFault meshFault)
        {
            fixed (byte* at = &Native.Start(toml))
            fixed (Place* vertices = &Native.Start<Place>(mesh.Vertices))
            fixed (uint* sizes = &Native.Start<uint>(mesh.Sizes), corners = &Native.Start<uint>(mesh.Corners))
            {
                var outcome = Native.lak_open_mesh(ref handle, at, Native.Length(toml), vertices, Native.Length<Place>(mesh.Vertices),
                    sizes, Native.Length<uint>(mesh.Sizes), corners, Native.Length<uint>(mesh.Corners), settings, slots, out fault,
                    out meshFault);
                if (outcome == Outcome.Done)
                    Native.lak_scene_name(ref handle, out name);
                return outcome;
            }
        }

        public void Dispose()
        {
            Native.lak_close(ref handle);
            GC.SuppressFinalize(this);
        }

        ~Cloth() { Native.lak_close(ref handle); }

        // ---- commands

        public Answer Step(ulong n, out Left left) { return Native.lak_step(ref handle, n, out left); }
        public Answer Step(ulong n = 1) { return Step(n, out _); }
        public Answer Pin(ulong particle) { return Native.lak_pin(ref handle, particle); }
        public Answer Unpin(ulong particle) { return Native.lak_unpin(ref handle, particle); }
        public Answer Move(ulong particle, Place to) { return Native.lak_move(ref handle, particle, to); }
        public Answer Cut(ulong link) { return Native.lak_cut(ref handle, link); }
        public Answer Gravity(Place gravity) { return Native.lak_gravity(ref handle, gravity); }

        /// <summary>Lets links go, one after another, and says how many of these cuts were refused.</summary>
        public Answer CutMany(ReadOnlySpan<uint> links, out int refused)
        {
            fixed (uint* at = &Native.Start(links))
            {
                var answer = Native.lak_cut_many(ref handle, at, Native.Length(links), out var count);
                refused = (int)(uint)count;
                return answer;
            }
        }

        // ---- slots

        public Answer Save(uint slot) { return Native.lak_save(ref handle, slot); }
        public Answer Restore(uint slot) { return Native.lak_restore(ref handle, slot); }

        // ---- reading: a list fills the span from its start, and its count says how many there are

        public Answer Counts(out Counts counts) { return Native.lak_counts(ref handle, out counts); }
        public Answer Sums(out Sums sums) { return Native.lak_sums(ref handle, out sums); }
        public Answer Contacts(out ulong contacts) { return Native.lak_contacts(ref handle, out contacts); }
        public Answer GravityNow(out Place gravity) { return Native.lak_gravity_now(ref handle, out gravity); }
        public Answer Ledger(out Ledger ledger) { return Native.lak_ledger(ref handle, out ledger); }

        /// <summary>The number of the link that joins two particles, or null: none joins them, or the cloth is closed.</summary>
        public uint? LinkBetween(uint a, uint b)
        {
            return Native.lak_link_between(ref handle, a, b, out var link) == Answer.Done ? link : (uint?)null;
        }

        public Answer Places(Span<Place> into, out uint count)
        {
            fixed (Place* at = &Native.Start<Place>(into))
                return Native.lak_places(ref handle, at, Native.Length<Place>(into), out count);
        }

        public Answer PlacesBefore(Span<Place> into, out uint count)
        {
            fixed (Place* at = &Native.Start<Place>(into))
                return Native.lak_places_before(ref handle, at, Native.Length<Place>(into), out count);
        }

        public Answer Held(Span<byte> into, out uint count)
        {
            fixed (byte* at = &Native.Start<byte>(into))
                return Native.lak_held(ref handle, at, Native.Length<byte>(into), out count);
        }

        public Answer Links(Span<Link> into, out uint count)
        {
            fixed (Link* at = &Native.Start<Link>(into))
                return Native.lak_links(ref handle, at, Native.Length<Link>(into), out count);
        }

        public Answer Live(Span<byte> into, out uint count)
        {
            fixed (byte* at = &Native.Start<byte>(into))
                return Native.lak_live(ref handle, at, Native.Length<byte>(into), out count);
        }

        public Answer GoneSince(uint slot, Span<uint> into, out uint count)
        {
            fixed (uint* at = &Native.Start<uint>(into))
                return Native.lak_gone_since(ref handle, slot, at, Native.Length<uint>(into), out count);
        }

        // ---- the world as bytes

        /// <summary>The name of the scene, which states carry.</summary>
        public Hash SceneName { get { return name; } }

        /// <summary>How many bytes a state of the scene has.</summary>
        public Answer StateSize(out int size)
        {
            var answer = Native.lak_state_size(ref handle, out var length);
            size = (int)(uint)length;
            return answer;
        }

        /// <summary>Writes the state of the world: for a saved game, or for a machine that joins.</summary>
        public Answer StateWrite(Span<byte> into, out int size)
        {
            fixed (byte* at = &Native.Start<byte>(into))
            {
                var answer = Native.lak_state_write(ref handle, name, at, Native.Length<byte>(into), out var length);
                size = (int)(uint)length;
                return answer;
            }
        }

        /// <summary>Goes over to the world whose state the bytes are; of others the offset says where they go wrong.</summary>
        public Answer StateRead(ReadOnlySpan<byte> state, out ulong offset)
        {
            fixed (byte* at = &Native.Start(state))
                return Native.lak_state_read(ref handle, name, at, Native.Length(state), out offset);
        }

        /// <summary>The SHA-256 digest of the state.</summary>
        public Answer Digest(out Hash digest) { return Native.lak_digest(ref handle, name, out digest); }

        /// <summary>That of the world in a slot.</summary>
        public Answer DigestSlot(uint slot, out Hash digest) { return Native.lak_digest_slot(ref handle, slot, name, out digest); }

        /// <summary>The checksum of the world, for each turn, and that of the world in a slot.</summary>
        public Answer Checksum(out ulong sum) { return Native.lak_checksum(ref handle, out sum); }
        public Answer ChecksumSlot(uint slot, out ulong sum) { return Native.lak_checksum_slot(ref handle, slot, out sum); }
    }

    /// <summary>Whole runs, from bytes to bytes.</summary>
    public static unsafe class Session
    {
        public static Outcome Record(ReadOnlySpan<byte> scene, ReadOnlySpan<byte> script, Span<byte> output, out int written)
        {
            fixed (byte* first = &Native.Start(scene), second = &Native.Start(script), into = &Native.Start<byte>(output))
            {
                var outcome = Native.lak_record(first, Native.Length(scene), second, Native.Length(script), into,
                    Native.Length<byte>(output), out var count);
                written = (int)(uint)count;
                return outcome;
            }
        }

        public static Outcome Replay(ReadOnlySpan<byte> log, Span<byte> output, out int written, out Stop stop)
        {
            fixed (byte* at = &Native.Start(log), into = &Native.Start<byte>(output))
            {
                var outcome = Native.lak_replay(at, Native.Length(log), into, Native.Length<byte>(output), out var count, out stop);
                written = (int)(uint)count;
                return outcome;
            }
        }
    }
}
