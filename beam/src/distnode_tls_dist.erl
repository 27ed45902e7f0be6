%% SPDX-License-Identifier: Apache-2.0
%% The carrier distnode_dist over TLS, with the options of inet_tls_dist: erl -proto_dist distnode_tls.
-module(distnode_tls_dist).
-define(TRANSPORT, distnode_tls).
-define(DRIVER, inet_tcp).
-define(OVER_TCP, inet_tcp_dist).
-define(STANDARD, inet_tls_dist).
-include("distnode_dist.hrl").
