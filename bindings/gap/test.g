# The calls from GAP. Run in the top folder of the repository: gap -A -q bindings/gap/test.g < /dev/null
Read( "bindings/gap/chieftables.g" );

failed := 0;;
Expect := function( what, holds )
  if not holds then
    failed := failed + 1;
    Print( "FAILED: ", what, "\n" );
  fi;
end;;

# Whether a call ends in an error.
Errs := function( call )
  local result;
  BreakOnError := false;
  SilentNonInteractiveErrors := true;
  result := CALL_WITH_CATCH( call, [] );
  SilentNonInteractiveErrors := false;
  BreakOnError := true;
  return not result[1];
end;;

# The number that a call is refused with, or 0.
Refused := function( call )
  CHIEFTABLES.refusal := 0;
  if Errs( call ) then
    return CHIEFTABLES.refusal;
  fi;
  return 0;
end;;

s3 := "j i p e1 e2\n1 1 3 0 0\n2 2 2 0 0\n2 1 0 1 0\n";;
table := ChiefTablesBuild( s3 );;
T := ChiefTablesRead( table );;
Expect( "order and degrees of S3", T.order = 6 and List( T.levels[2], D -> D.degree ) = [ 1, 1, 2 ] );
Expect( "a matrix of S3", T.levels[2][3].matrices = [ [ [ E(3), 0 ], [ 0, E(3)^2 ] ], [ [ 0, 1 ], [ 1, 0 ] ] ] );
Expect( "an intertwiner of S3", T.levels[1][2].leads = [ 2 ] and T.levels[2][3].blocks = [ 1, 2 ] );
Expect( "the table of S3 passes", Refused( function() ChiefTablesCheck( s3, table ); end ) = 0 );
wrong := ReplacedString( table, "2 2 2 2 2 1 0 0", "2 2 2 2 2 1 0 1" );;
Expect( "a wrong exponent is 22", Refused( function() ChiefTablesCheck( s3, wrong ); end ) = 22 );
Expect( "no text is 11", Refused( function() ChiefTablesBuild( "" ); end ) = 11 );
Expect( "a text that is not consistent is 15", Refused( function() ChiefTablesBuild( ReplacedString( s3, "0 1 0", "0 2 0" ) ); end ) = 15 );

# The group of a text, and the text of that group.
Expect( "the group of S3 is not abelian", Size( ChiefTablesGroup( s3 ) ) = 6 and not IsAbelian( ChiefTablesGroup( s3 ) ) );
g128 := StringFile( "harness/data/g128.txt" );;
Expect( "128 elements", Size( ChiefTablesGroup( g128 ) ) = 128 and ChiefTablesAgree( ChiefTablesGroup( g128 ) ) );

# What is no refusal is an error all the same.
Expect( "A4 is not supersolvable", Errs( function() ChiefTablesText( AlternatingGroup( 4 ) ); end ) );
program := CHIEFTABLES.program;;
CHIEFTABLES.program := "/nowhere/chieftables";;
Expect( "a missing program is an error", Errs( function() ChiefTablesBuild( s3 ); end ) );
CHIEFTABLES.program := program;;

# A presentation of "order 10" that is not consistent: GAP's constructor without checks takes it, and the squares of the degrees of
# what it returns as representations add up to 14. Here it is 15.
free := FreeGroup( "a", "b" );;
collector := SingleCollector( free, [ 2, 5 ] );;
SetConjugate( collector, 2, 1, free.2^2 );
false10 := IrreducibleRepresentations( GroupByRwsNC( collector ) );;
Expect( "GAP returns representations", Sum( false10, r -> Length( Image( r, GeneratorsOfGroup( Source( r ) )[1] ) )^2 ) = 14 );
Expect( "here it is 15", Refused( function() ChiefTablesBuild( "j i p e1 e2\n1 1 5 0 0\n2 2 2 0 0\n2 1 0 1 0\n" ); end ) = 15 );

# Groups whose characters are compared with those of GAP.
cyclic := n -> CyclicGroup( IsPermGroup, n );;
groups := [ CyclicGroup( 12 ), AbelianGroup( [ 2, 4, 3 ] ), DihedralGroup( 8 ), DihedralGroup( 30 ), QuaternionGroup( 8 ),
  QuaternionGroup( 32 ), ExtraspecialGroup( 27, 3 ), ExtraspecialGroup( 27, 9 ), ExtraspecialGroup( 32, "-" ),
  ExtraspecialGroup( 125, 5 ), SymmetricGroup( 3 ), Group( (1,2,3,4,5), (2,3,5,4) ), Group( (1,2,3,4,5,6,7), (2,4,3,7,5,6) ),
  DirectProduct( SymmetricGroup( 3 ), SymmetricGroup( 3 ) ), DirectProduct( DihedralGroup( 16 ), CyclicGroup( 3 ) ),
  WreathProduct( cyclic( 2 ), cyclic( 4 ) ), WreathProduct( cyclic( 3 ), cyclic( 3 ) ), SylowSubgroup( SymmetricGroup( 8 ), 2 ),
  DirectProduct( QuaternionGroup( 8 ), DihedralGroup( 14 ) ), SylowSubgroup( SymmetricGroup( 9 ), 3 ) ];;
for G in groups do
  Expect( Concatenation( "the characters of a group of order ", String( Size( G ) ) ), ChiefTablesAgree( G ) );
od;
Print( "gap: ", Length( groups ), " groups with the characters that Irr has, ", failed, " failed\n" );
if failed = 0 then
  QuitGap( 0 );
fi;
QuitGap( 1 );
