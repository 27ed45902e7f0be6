%% SPDX-License-Identifier: Apache-2.0
%% The carrier distnode_tls_dist over IPv6: erl -proto_dist distnode6_tls.
-module(distnode6_tls_dist).
-define(TRANSPORT, distnode_tls).
-define(DRIVER, inet6_tcp).
-define(OVER_TCP, inet6_tcp_dist).
-define(STANDARD, inet6_tls_dist).
-include("distnode_dist.hrl").
