# nixkeep for NixOS, of the archive that `bin/package` makes: the program is bound to Nix's C library, and the units to this package.
#
#   nixkeep = pkgs.callPackage ./package.nix { src = ./nixkeep_1.0.0_amd64.tar.gz; };
{ lib, stdenv, autoPatchelfHook, python3, src }:
stdenv.mkDerivation {
  pname = "nixkeep";
  version = builtins.head (builtins.match ".*nixkeep_([0-9.]+)_amd64.*" (toString src));
  inherit src;
  nativeBuildInputs = [ autoPatchelfHook ];
  buildInputs = [ (python3.withPackages (it: [ it.aiohttp it.zstandard it.jinja2 ])) ];
  installPhase = ''
    mkdir -p $out
    cp -r usr/bin usr/lib usr/share $out/
    sed -i -e "s|/usr/bin/|$out/bin/|g" -e 's|=sh -c|=/bin/sh -c|' $out/lib/systemd/system/*
  '';
  meta = {
    description = "Multi-user Nix store whose behaviour is proved";
    license = [ lib.licenses.mit lib.licenses.asl20 ];
    platforms = [ "x86_64-linux" ];
  };
}
