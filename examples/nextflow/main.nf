// Counts the k-mers of samples, and makes the histogram that GenomeScope reads:
// nextflow run examples/nextflow/main.nf --reads 'reads/*.fastq.gz'

params.reads = 'reads/*.fastq.gz'
params.k = 31
params.min = 2
params.k_of_histogram = 21
params.out = 'results'

process COUNT_KMERS {
    tag "${sample}"
    publishDir "${params.out}/dumps", mode: 'copy'
    cpus 8
    memory '8 GB'

    input:
    tuple val(sample), path(reads)

    output:
    tuple val(sample), path("${sample}.dump.gz"), path("${sample}.dump.gz.json"), emit: dump

    script:
    """
    futoncrane count -k ${params.k} --min ${params.min} -t ${task.cpus} -m ${task.memory.toMega()}M -o ${sample}.dump.gz ${reads}
    """
}

process HISTOGRAM {
    tag "${sample}"
    publishDir "${params.out}/histograms", mode: 'copy'
    cpus 8
    memory '8 GB'

    input:
    tuple val(sample), path(reads)

    output:
    tuple val(sample), path("${sample}.histo"), emit: histo

    script:
    """
    futoncrane genomescope -k ${params.k_of_histogram} -t ${task.cpus} -m ${task.memory.toMega()}M -o ${sample}.histo ${reads}
    """
}

workflow {
    samples = Channel.fromPath(params.reads).map { file -> tuple(file.simpleName, file) }
    COUNT_KMERS(samples)
    HISTOGRAM(samples)
}
