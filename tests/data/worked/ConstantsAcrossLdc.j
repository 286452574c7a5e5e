.class public Main
.super java/lang/Object
.method public static main([Ljava/lang/String;)V
    .limit stack 8
    .limit locals 8
    ldc 40000
    pop
    ldc 40001
    pop
    ldc 40002
    pop
    ldc 40003
    pop
    ldc 40004
    pop
    ldc 40005
    pop
    ldc 40006
    pop
    ldc 40007
    pop
    ldc 40008
    pop
    ldc 40009
    pop
    ldc 40010
    pop
    ldc 40011
    pop
    ldc 40012
    pop
    ldc 40013
    pop
    ldc 40014
    pop
    ldc 40015
    pop
    ldc 40016
    pop
    ldc 40017
    pop
    ldc 40018
    pop
    ldc 40019
    pop
    ldc 40020
    pop
    ldc 40021
    pop
    ldc 40022
    pop
    ldc 40023
    pop
    ldc 40024
    pop
    ldc 40025
    pop
    ldc 40026
    pop
    ldc 40027
    pop
    ldc 40028
    pop
    ldc 40029
    pop
    ldc 40030
    pop
    ldc 40031
    pop
    ldc 40032
    pop
    ldc 40033
    pop
    ldc 40034
    pop
    ldc 40035
    pop
    ldc 40036
    pop
    ldc 40037
    pop
    ldc 40038
    pop
    ldc 40039
    pop
    ldc 40040
    pop
    ldc 40041
    pop
    ldc 40042
    pop
    ldc 40043
    pop
    ldc 40044
    pop
    ldc 40045
    pop
    ldc 40046
    pop
    ldc 40047
    pop
    ldc 40048
    pop
    ldc 40049
    pop
    ldc 40050
    pop
    ldc 40051
    pop
    ldc 40052
    pop
    ldc 40053
    pop
    ldc 40054
    pop
    ldc 40055
    pop
    ldc 40056
    pop
    ldc 40057
    pop
    ldc 40058
    pop
    ldc 40059
    pop
    ldc 40060
    pop
    ldc 40061
    pop
    ldc 40062
    pop
    ldc 40063
    pop
    ldc 40064
    pop
    ldc 40065
    pop
    ldc 40066
    pop
    ldc 40067
    pop
    ldc 40068
    pop
    ldc 40069
    pop
    ldc 40070
    pop
    ldc 40071
    pop
    ldc 40072
    pop
    ldc 40073
    pop
    ldc 40074
    pop
    ldc 40075
    pop
    ldc 40076
    pop
    ldc 40077
    pop
    ldc 40078
    pop
    ldc 40079
    pop
    ldc 40080
    pop
    ldc 40081
    pop
    ldc 40082
    pop
    ldc 40083
    pop
    ldc 40084
    pop
    ldc 40085
    pop
    ldc 40086
    pop
    ldc 40087
    pop
    ldc 40088
    pop
    ldc 40089
    pop
    ldc 40090
    pop
    ldc 40091
    pop
    ldc 40092
    pop
    ldc 40093
    pop
    ldc 40094
    pop
    ldc 40095
    pop
    ldc 40096
    pop
    ldc 40097
    pop
    ldc 40098
    pop
    ldc 40099
    pop
    ldc 40100
    pop
    ldc 40101
    pop
    ldc 40102
    pop
    ldc 40103
    pop
    ldc 40104
    pop
    ldc 40105
    pop
    ldc 40106
    pop
    ldc 40107
    pop
    ldc 40108
    pop
    ldc 40109
    pop
    ldc 40110
    pop
    ldc 40111
    pop
    ldc 40112
    pop
    ldc 40113
    pop
    ldc 40114
    pop
    ldc 40115
    pop
    ldc 40116
    pop
    ldc 40117
    pop
    ldc 40118
    pop
    ldc 40119
    pop
    ldc 40120
    pop
    ldc 40121
    pop
    ldc 40122
    pop
    ldc 40123
    pop
    ldc 40124
    pop
    ldc 40125
    pop
    ldc 40126
    pop
    ldc 40127
    pop
    ldc 40128
    pop
    ldc 40129
    pop
    ldc 40130
    pop
    ldc 40131
    pop
    ldc 40132
    pop
    ldc 40133
    pop
    ldc 40134
    pop
    ldc 40135
    pop
    ldc 40136
    pop
    ldc 40137
    pop
    ldc 40138
    pop
    ldc 40139
    pop
    ldc 40140
    pop
    ldc 40141
    pop
    ldc 40142
    pop
    ldc 40143
    pop
    ldc 40144
    pop
    ldc 40145
    pop
    ldc 40146
    pop
    ldc 40147
    pop
    ldc 40148
    pop
    ldc 40149
    pop
    ldc 40150
    pop
    ldc 40151
    pop
    ldc 40152
    pop
    ldc 40153
    pop
    ldc 40154
    pop
    ldc 40155
    pop
    ldc 40156
    pop
    ldc 40157
    pop
    ldc 40158
    pop
    ldc 40159
    pop
    ldc 40160
    pop
    ldc 40161
    pop
    ldc 40162
    pop
    ldc 40163
    pop
    ldc 40164
    pop
    ldc 40165
    pop
    ldc 40166
    pop
    ldc 40167
    pop
    ldc 40168
    pop
    ldc 40169
    pop
    ldc 40170
    pop
    ldc 40171
    pop
    ldc 40172
    pop
    ldc 40173
    pop
    ldc 40174
    pop
    ldc 40175
    pop
    ldc 40176
    pop
    ldc 40177
    pop
    ldc 40178
    pop
    ldc 40179
    pop
    ldc 40180
    pop
    ldc 40181
    pop
    ldc 40182
    pop
    ldc 40183
    pop
    ldc 40184
    pop
    ldc 40185
    pop
    ldc 40186
    pop
    ldc 40187
    pop
    ldc 40188
    pop
    ldc 40189
    pop
    ldc 40190
    pop
    ldc 40191
    pop
    ldc 40192
    pop
    ldc 40193
    pop
    ldc 40194
    pop
    ldc 40195
    pop
    ldc 40196
    pop
    ldc 40197
    pop
    ldc 40198
    pop
    ldc 40199
    pop
    ldc 40200
    pop
    ldc 40201
    pop
    ldc 40202
    pop
    ldc 40203
    pop
    ldc 40204
    pop
    ldc 40205
    pop
    ldc 40206
    pop
    ldc 40207
    pop
    ldc 40208
    pop
    ldc 40209
    pop
    ldc 40210
    pop
    ldc 40211
    pop
    ldc 40212
    pop
    ldc 40213
    pop
    ldc 40214
    pop
    ldc 40215
    pop
    ldc 40216
    pop
    ldc 40217
    pop
    ldc 40218
    pop
    ldc 40219
    pop
    ldc 40220
    pop
    ldc 40221
    pop
    ldc 40222
    pop
    ldc 40223
    pop
    ldc 40224
    pop
    ldc 40225
    pop
    ldc 40226
    pop
    ldc 40227
    pop
    ldc 40228
    pop
    ldc 40229
    pop
    ldc 40230
    pop
    ldc 40231
    pop
    ldc 40232
    pop
    ldc 40233
    pop
    ldc 40234
    pop
    ldc 40235
    pop
    ldc 40236
    pop
    ldc 40237
    pop
    ldc 40238
    pop
    ldc 40239
    pop
    ldc 40240
    pop
    ldc 40241
    pop
    ldc 40242
    pop
    ldc 40243
    pop
    ldc 40244
    pop
    ldc 40245
    pop
    ldc 40246
    pop
    ldc 40247
    pop
    ldc 40248
    pop
    return
.end method
