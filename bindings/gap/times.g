# How long GAP takes for what a build does: BaumClausenInfo of the group of each text, the smallest of 21 runs with a group that is
# made anew. Run in the top folder of the repository: gap -A -q bindings/gap/times.g < /dev/null
Read( "bindings/gap/chieftables.g" );

for name in [ "s3", "g128", "affine61" ] do
  text := StringFile( Concatenation( "harness/data/", name, ".txt" ) );;
  least := infinity;;
  for k in [ 1 .. 21 ] do
    G := ChiefTablesGroup( text );;
    start := NanosecondsSinceEpoch();;
    BaumClausenInfo( G );;
    least := Minimum( least, NanosecondsSinceEpoch() - start );;
  od;
  Print( name, " ", Int( least / 1000 ), " microseconds\n" );
od;
QuitGap( 0 );
