# Tables of irreducible representations of supersolvable groups, from GAP.
#
#   ChiefTablesText( G )             a record P: `gens`, generators along a chief series from the bottom up, `primes`, and
#                                    `text`, the presentation text in them
#   ChiefTablesGroup( text )         the pc group of a presentation text; its generators come from the top down
#   ChiefTablesBuild( text )         the table text, made by the program `chieftables`
#   ChiefTablesCheck( text, table )  nothing, if the table text is a table of the presentation text, whoever made it
#   ChiefTablesRead( table )         a record: `order`, `generators`, and `levels`, for each level a list of representations,
#                                    each with `degree`, `blocks`, `matrices` (of the generators up to the level),
#                                    `intertwiners` (of those above) and `leads` (where these lead, from 0)
#   ChiefTablesWord( P, x )          the exponents of x: gens[n]^e[n] * .. * gens[1]^e[1]
#   ChiefTablesCharacters( G )       the characters of G on its conjugacy classes, from the table
#   ChiefTablesAgree( G )            whether they are those of Irr( G )
#
# A refusal is an error whose text has its number and sentence; CHIEFTABLES.refusal has the number. The program is the file
# that CHIEFTABLES.program names. In the top folder of the repository these make it:
#
#   scripts/library
#   cargo build --release --manifest-path bindings/rust/Cargo.toml

BindGlobal( "CHIEFTABLES", rec( refusal := 0 ) );

# The program is looked for beside the folder where GAP was started, unless CHIEFTABLES_PROGRAM names it.
CHIEFTABLES.program := "target/cargo/release/chieftables";
if IsBound( GAPInfo.SystemEnvironment.CHIEFTABLES_PROGRAM ) then
  CHIEFTABLES.program := GAPInfo.SystemEnvironment.CHIEFTABLES_PROGRAM;
fi;

CHIEFTABLES.sentences := [];
CHIEFTABLES.sentences[11] := "the presentation text is not in the form";
CHIEFTABLES.sentences[12] := "the p of a line with i = j is not prime";
CHIEFTABLES.sentences[13] := "there are more than 14 generators, or the order is above 16,384";
CHIEFTABLES.sentences[14] := "a word has an exponent that is not below its prime, or a generator that it may not have";
CHIEFTABLES.sentences[15] := "the presentation is not consistent: two of its normal forms are equal";
CHIEFTABLES.sentences[16] := "the buffer is shorter than the call wants";
CHIEFTABLES.sentences[20] := "the table text is not in the form";
CHIEFTABLES.sentences[21] := "the words are not the lines of a table";
CHIEFTABLES.sentences[22] := "a relation fails";
CHIEFTABLES.sentences[23] := "a restriction differs from the blocks that are listed";
CHIEFTABLES.sentences[24] := "an intertwiner fails, or leads to another degree";
CHIEFTABLES.sentences[25] := "a basis index is not reached, or two are not separated";
CHIEFTABLES.sentences[26] := "the squares of the degrees do not add up to the order";

# The error of a refusal.
ChiefTablesRefuse := function( number )
  CHIEFTABLES.refusal := number;
  ErrorNoReturn( "chieftables refuses with ", number, ": ", CHIEFTABLES.sentences[number] );
end;

# The exponents of x, the last generator's first; `levels[j]` is the part below generator j.
ChiefTablesWord := function( P, x )
  local word, j;
  word := 0 * P.primes;
  for j in Reversed( [ 1 .. Length( P.gens ) ] ) do
    while not x in P.levels[j] do
      x := P.gens[j]^-1 * x;
      word[j] := word[j] + 1;
    od;
  od;
  return word;
end;

# Generators along a chief series, and the presentation in them.
ChiefTablesText := function( G )
  local series, n, P, names, line, j, i;
  series := Reversed( ChiefSeries( G ) );
  n := Length( series ) - 1;
  if n = 0 then
    ErrorNoReturn( "chieftables: the group is trivial, and a presentation has at least one generator" );
  fi;
  P := rec( levels := series{[ 1 .. n ]}, primes := List( [ 1 .. n ], j -> Index( series[j+1], series[j] ) ) );
  if not ForAll( P.primes, IsPrimeInt ) then
    ErrorNoReturn( "chieftables: the group is not supersolvable, a chief factor has order ", First( P.primes, p -> not IsPrimeInt( p ) ) );
  fi;
  P.gens := List( [ 1 .. n ], j -> First( GeneratorsOfGroup( series[j+1] ), g -> not g in series[j] ) );
  line := function( j, i, p, x )
    Append( P.text, JoinStringsWithSeparator( Concatenation( [ j, i, p ], ChiefTablesWord( P, x ) ), " " ) );
    Append( P.text, "\n" );
  end;
  names := List( [ 1 .. n ], k -> Concatenation( "e", String( k ) ) );
  P.text := Concatenation( "j i p ", JoinStringsWithSeparator( names, " " ), "\n" );
  for j in [ 1 .. n ] do
    line( j, j, P.primes[j], P.gens[j]^P.primes[j] );
    for i in [ 1 .. j - 1 ] do
      line( j, i, 0, Comm( P.gens[i], P.gens[j] ) );
    od;
  od;
  return P;
end;

# Runs the program on texts, which it reads from files of their own; its output.
ChiefTablesRun := function( call, texts )
  local folder, files, said, out, status, k;
  if not IsExecutableFile( CHIEFTABLES.program ) then
    ErrorNoReturn( "chieftables: ", CHIEFTABLES.program, " is missing: `scripts/library`, then ",
      "`cargo build --release --manifest-path bindings/rust/Cargo.toml` make it" );
  fi;
  folder := DirectoryTemporary();
  files := List( [ 1 .. Length( texts ) ], k -> Filename( folder, Concatenation( "text", String( k ) ) ) );
  for k in [ 1 .. Length( texts ) ] do
    FileString( files[k], texts[k] );
  od;
  said := "";
  out := OutputTextString( said, false );
  SetPrintFormattingStatus( out, false );
  # a refusal's line goes where the output goes, and is then all of it
  status := Process( DirectoryCurrent(), "/bin/sh", InputTextNone(), out,
    Concatenation( [ "-c", "exec \"$0\" \"$@\" 2>&1", CHIEFTABLES.program, call ], files ) );
  CloseStream( out );
  CHIEFTABLES.refusal := 0;
  if status = 1 then
    ChiefTablesRefuse( Int( said{[ 1 .. Position( said, ':' ) - 1 ]} ) );
  elif status <> 0 then
    ErrorNoReturn( "chieftables: ", said );
  fi;
  return said;
end;

# The text is accepted first, so the constructor without checks is given what is consistent.
ChiefTablesGroup := function( text )
  local lines, n, free, primes, collector, word, line, i, j;
  ChiefTablesRun( "accept", [ text ] );
  lines := List( SplitString( text, "\n" ), line -> SplitString( line, " " ) );
  n := Length( lines[1] ) - 3;
  lines := List( lines{[ 2 .. Length( lines ) ]}, line -> List( line, Int ) );
  primes := List( Filtered( lines, line -> line[1] = line[2] ), line -> line[3] );
  free := FreeGroup( n );
  collector := SingleCollector( free, Reversed( primes ) );
  word := line -> Product( Reversed( [ 1 .. n ] ), k -> free.( n + 1 - k )^line[3+k], One( free ) );
  for line in lines do
    j := n + 1 - line[1];
    i := n + 1 - line[2];
    if i = j then
      SetPower( collector, j, word( line ) );
    else
      SetConjugate( collector, i, j, free.( i ) * word( line ) );
    fi;
  od;
  return GroupByRwsNC( collector );
end;

ChiefTablesBuild := function( text )
  return ChiefTablesRun( "build", [ text ] );
end;

ChiefTablesCheck := function( text, table )
  ChiefTablesRun( "check", [ text, table ] );
end;

# The matrix of lines of one generator: basis vector `col` goes to a root of unity times basis vector `row`.
ChiefTablesMatrix := function( lines, e )
  local matrix, line;
  matrix := NullMat( Length( lines ), Length( lines ) );
  for line in lines do
    matrix[line[7]+1][line[6]+1] := E( e )^line[8];
  od;
  return matrix;
end;

# A table text as matrices. Its form is judged by the library when the table is built or checked, and not here.
ChiefTablesRead := function( table )
  local lines, T, at, first, d, part, i;
  lines := List( SplitString( table, "\n" ), line -> SplitString( line, " " ) );
  lines := List( lines{[ 2 .. Length( lines ) ]}, line -> List( line, Int ) );
  T := rec( generators := lines[Length( lines )][4], levels := [] );
  T.order := Sum( Filtered( lines, l -> l[1] = T.generators and l[4] = 1 and l[6] = 0 ), l -> l[3]^2 );
  at := 1;
  while at <= Length( lines ) do
    first := lines[at];
    i := first[1];
    d := first[3];
    part := List( [ 0 .. T.generators - 1 ], k -> lines{[ at + k * d .. at + k * d + d - 1 ]} );
    if not IsBound( T.levels[i] ) then
      T.levels[i] := [];
    fi;
    Add( T.levels[i], rec(
      degree := d,
      blocks := List( part[1], line -> line[5] ),
      matrices := List( [ 1 .. i ], k -> ChiefTablesMatrix( part[k], T.order ) ),
      intertwiners := List( [ i + 1 .. T.generators ], k -> ChiefTablesMatrix( part[k], T.order ) ),
      leads := List( [ i + 1 .. T.generators ], k -> part[k][1][5] ) ) );
    at := at + T.generators * d;
  od;
  return T;
end;

# The characters of G, a list of values on the classes for each representation of the last level.
ChiefTablesCharacters := function( G )
  local P, T, words, last;
  P := ChiefTablesText( G );
  T := ChiefTablesRead( ChiefTablesBuild( P.text ) );
  words := List( ConjugacyClasses( G ), class -> ChiefTablesWord( P, Representative( class ) ) );
  last := T.levels[T.generators];
  return List( last, D -> List( words, word ->
    TraceMat( Product( Reversed( [ 1 .. Length( word ) ] ), k -> D.matrices[k]^word[k], IdentityMat( D.degree ) ) ) ) );
end;

ChiefTablesAgree := function( G )
  return Set( ChiefTablesCharacters( G ) ) = Set( Irr( G ), ValuesOfClassFunction );
end;
