# nix-build packaging/nix
{ pkgs ? import <nixpkgs> { } }:

pkgs.stdenv.mkDerivation {
  pname = "cefindrato";
  version = "0.4.0";
  src = ../..;
  nativeBuildInputs = [ pkgs.python3 ];
  buildInputs = [ pkgs.python3 ];
  postPatch = "patchShebangs install.sh tools";
  dontBuild = true;
  installPhase = ''
    ./install.sh --dist "$out"
    rm -r "$out/share/cefindrato"
  '';
  doInstallCheck = true;
  installCheckPhase = ''"$out/bin/varisat_check"'';
  meta = {
    description = "Proved checkers of SAT solvers' proofs and answers";
    license = with pkgs.lib.licenses; [ mit asl20 ];
    platforms = [ "x86_64-linux" ];
  };
}
