%% SPDX-License-Identifier: Apache-2.0
%% An -epmd_module: erl_epmd, but where a test has put a port of this machine in place of a node's.
-module(relay_epmd).
-export([start_link/0, register_node/2, register_node/3, port_please/2, port_please/3, names/1, address_please/3,
         listen_port_please/2, instead/2]).

instead(Name, Port) -> persistent_term:put({?MODULE, Name}, Port).

port_please(Name, Host) -> port_please(Name, Host, infinity).

port_please(Name, Host, Wait) ->
    case persistent_term:get({?MODULE, Name}, none) of
        none -> erl_epmd:port_please(Name, Host, Wait);
        Port -> {port, Port, 6}
    end.

start_link() -> erl_epmd:start_link().
register_node(Name, Port) -> erl_epmd:register_node(Name, Port).
register_node(Name, Port, Driver) -> erl_epmd:register_node(Name, Port, Driver).
names(Host) -> erl_epmd:names(Host).

address_please(Name, Host, Family) ->
    case persistent_term:get({?MODULE, Name}, none) of
        none -> erl_epmd:address_please(Name, Host, Family);
        _ -> {ok, {127, 0, 0, 1}}
    end.

listen_port_please(Name, Host) -> erl_epmd:listen_port_please(Name, Host).
