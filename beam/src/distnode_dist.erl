%% SPDX-License-Identifier: Apache-2.0
%% A carrier of Erlang's distribution whose handshakes the proved core decides: erl -proto_dist distnode.
-module(distnode_dist).
-define(TRANSPORT, distnode_tcp).
-define(DRIVER, inet_tcp).
-define(OVER_TCP, inet_tcp_dist).
-define(STANDARD, inet_tcp_dist).
-include("distnode_dist.hrl").
