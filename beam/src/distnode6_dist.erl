%% SPDX-License-Identifier: Apache-2.0
%% The carrier distnode_dist over IPv6: erl -proto_dist distnode6.
-module(distnode6_dist).
-define(TRANSPORT, distnode_tcp).
-define(DRIVER, inet6_tcp).
-define(OVER_TCP, inet6_tcp_dist).
-define(STANDARD, inet6_tcp_dist).
-include("distnode_dist.hrl").
