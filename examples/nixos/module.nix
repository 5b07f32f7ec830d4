# Stores of nixkeep on NixOS, without flakes. In configuration.nix:
#
#   imports = [ ./module.nix ];
#   services.nixkeep = {
#     package = pkgs.callPackage ./package.nix { src = ./nixkeep_1.0.0_amd64.tar.gz; };
#     stores.red.configuration = ''
#       allowed-users = ["ann", "bob"]
#       trusted-users = ["build"]
#     '';
#   };
#
# A store has the units of the package: a socket, which the proxy opens, and nixkeep-cache with the server as its child.
{ config, lib, ... }:
let
  inherit (lib) mkIf mkOption types mapAttrs' nameValuePair;
  it = config.services.nixkeep;
  each = name: value: mapAttrs' (store: of: nameValuePair (name store) (value store of)) it.stores;
in
{
  options.services.nixkeep = {
    package = mkOption {
      type = types.package;
      description = "nixkeep, as package.nix makes it.";
    };
    stores = mkOption {
      default = { };
      description = "The stores by name.";
      type = types.attrsOf (types.submodule {
        options.configuration = mkOption {
          type = types.lines;
          description = "The configuration of the store, in TOML: who is allowed, and who is trusted.";
        };
        options.proxies = mkOption {
          type = types.listOf types.str;
          default = [ "nginx" ];
          description = "The accounts that may open the socket, and so say who a user is: the reverse proxy alone.";
        };
      });
    };
  };

  config = mkIf (it.stores != { }) {
    environment.systemPackages = [ it.package ];
    environment.etc = each (store: "nixkeep/${store}.toml") (_: of: { text = of.configuration; });
    users.groups = each (store: "nixkeep-${store}") (_: of: { members = of.proxies; });
    systemd.packages = [ it.package ];
    systemd.sockets = each (store: "nixkeep@${store}") (_: _: {
      overrideStrategy = "asDropin";
      wantedBy = [ "sockets.target" ];
    });
    systemd.services = each (store: "nixkeep@${store}") (_: of: {
      overrideStrategy = "asDropin";
      wantedBy = [ "multi-user.target" ];
      restartTriggers = [ of.configuration ];
    });
  };
}
